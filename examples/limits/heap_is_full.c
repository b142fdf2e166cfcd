#include <stdio.h>
#include <stdlib.h>

int main(void) {
  int count = 0;
  while (malloc(100) != NULL) count++;
  printf("%d blocks of 100 bytes\n", count);
  return 0;
}
