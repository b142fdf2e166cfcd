#include <stdlib.h>

int main(void) {
  int *a = malloc(4 * sizeof(int));
  int *end = a + 4;
  *end = 1;
  return 0;
}
