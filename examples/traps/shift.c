int main(void) {
  int by = 32;
  return 1 << by;
}
