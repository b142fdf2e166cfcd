#include <stdlib.h>

int main(void) {
  char *names[2];
  names[0] = malloc(8);
  names[1] = malloc(8);
  free(names[1]);
  free(names[0]);
  return 0;
}
