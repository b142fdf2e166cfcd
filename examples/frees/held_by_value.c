#include <stdlib.h>

int drop(char *p) {
  free(p);
  return 0;
}

int use(char *p, int dropped) { return p[dropped]; }

int main(void) {
  char *p = malloc(4);
  return use(p, drop(p));
}
