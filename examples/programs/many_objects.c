#include <stdio.h>
#include <stdlib.h>

/* 200,000 objects stay, and as many again are made and freed behind them: finding a place has to be quick where many are
   held, and a check must not look at what it does not free. */

struct node { struct node *next; };

int main(void) {
  struct node *all = 0;
  struct node *p;
  int i, count = 0;
  for (i = 0; i < 200000; i++) {
    struct node *made = malloc(sizeof *made);
    made->next = all;
    all = made;
  }
  for (i = 0; i < 200000; i++) {
    struct node *made = malloc(sizeof *made);
    free(made);
  }
  for (p = all; p; p = p->next) count++;
  printf("%d objects\n", count);
  return 0;
}
