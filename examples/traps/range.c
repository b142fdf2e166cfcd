int a[4];

int main(void) {
  int *p = a;
  int i;
  for (i = 0; i < 5; i++) *p++ = i;
  return p - a;
}
