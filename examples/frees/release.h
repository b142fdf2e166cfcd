#include <stdlib.h>
char *make_line(void) {
  return malloc(80);
}
void release(char *p) {
  free(p);
}
