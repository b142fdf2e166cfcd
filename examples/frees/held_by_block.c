#include <stdlib.h>

struct node { int value; struct node *next; };

int main(void) {
  struct node *first = malloc(sizeof *first);
  first->next = malloc(sizeof *first);
  free(first->next);
  return first->value;
}
