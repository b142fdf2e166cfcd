#include <stdlib.h>

int main(void) {
  char *kept = malloc(3);
  int i;
  for (i = 0; i < 4; i++) malloc(10);
  kept[0] = 1;
  return 7;
}
