int main(void){putchar('a');putchar('b');return 0;}
