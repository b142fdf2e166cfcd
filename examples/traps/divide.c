int main(void) {
  int count = 0;
  return 100 / count;
}
