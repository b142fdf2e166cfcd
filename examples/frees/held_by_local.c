#include <stdio.h>
#include <stdlib.h>

int main(void) {
  int *numbers = malloc(3 * sizeof(int));
  int *second = numbers + 1;
  free(numbers);
  printf("%d\n", *second);
  return 0;
}
