// Writes a greeting, byte by byte; 10 ends the line.
int main(void) {
  putchar('h');
  putchar('e');
  putchar('l');
  putchar('l');
  putchar('o');
  putchar(10);
  return 0;
}
