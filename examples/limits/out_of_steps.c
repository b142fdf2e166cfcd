#include <stdio.h>

int main(void) {
  int i;
  for (i = 0;; i++) if (i < 3) printf("%d\n", i);
}
