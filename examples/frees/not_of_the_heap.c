#include <stdlib.h>

char line[80];

int main(void) {
  free(line);
  return 0;
}
