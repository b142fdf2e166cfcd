#include <stdlib.h>
#define RELEASE(p) free(p)
char *last;
int main(void) {
  char *line = malloc(80);
  last = line;
  RELEASE(line);
  return 0;
}
