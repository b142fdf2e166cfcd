#include <stdio.h>
#include <stdlib.h>

struct node { struct node *other; };

int main(void) {
  struct node *a = malloc(sizeof *a);
  struct node *b = malloc(sizeof *b);
  a->other = b;
  b->other = a;
  __delay_frees {
    free(a);
    free(b);
  }
  puts("both are gone");
  return 0;
}
