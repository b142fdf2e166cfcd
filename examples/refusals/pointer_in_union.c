union word { int number; char *text; };

int main(void) {
  return 0;
}
