#include "release.h"
char *line;
int main(void) {
  line = make_line();
  release(line);
  return 0;
}
