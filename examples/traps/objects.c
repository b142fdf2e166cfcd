int a[4];
int b[4];

int main(void) {
  int *p = a;
  int *q = b;
  return p < q;
}
