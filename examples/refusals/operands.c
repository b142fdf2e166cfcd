int main(void) {
  char *p = "a";
  char *q = "b";
  return (p + q)[0];
}
