#include <stdlib.h>

int main(void) {
  char *p = malloc(4);
  char *q = realloc(p, 8);
  p[0] = 'x';
  return q[0];
}
