int main(void) {
  int x = 1;
  char *p = &x;
  return *p;
}
