#define COUNT 0
#if 100 / COUNT > 10
int main(void) {
  return 0;
}
#endif
