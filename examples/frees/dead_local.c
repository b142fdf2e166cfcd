#include <stdio.h>
#include <stdlib.h>

int main(void) {
  char *p = malloc(4);
  char *q = p;
  q[0] = 'x';
  free(p);
  q = malloc(2);
  q[0] = 'y';
  printf("%c\n", q[0]);
  free(q);
  return 0;
}
