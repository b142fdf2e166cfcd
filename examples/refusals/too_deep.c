#include "too_deep.c"
int main(void) {
  return 0;
}
