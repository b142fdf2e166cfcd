#include <stdlib.h>
char *last;
int main(void) {
  char *line = malloc(80);
  last = line;
  free(line);
  return 0;
}
