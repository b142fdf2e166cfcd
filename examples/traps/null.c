#include <stdlib.h>

struct node { struct node *next; int value; };

int main(void) {
  struct node *first = NULL;
  return first->value;
}
