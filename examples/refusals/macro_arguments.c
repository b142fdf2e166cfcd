#define TWICE(x) ((x) + (x))
int main(void) {
  return TWICE(1, 2);
}
