char bytes[8];

int main(void) {
  int *p = (int *)(bytes + 2);
  return *p;
}
