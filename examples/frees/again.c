#include <stdlib.h>

int main(void) {
  char *p = malloc(8);
  __delay_frees {
    free(p);
    free(p);
  }
  return 0;
}
