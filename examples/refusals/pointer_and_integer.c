int main(void) {
  char *p = (char *)4096;
  return *p;
}
