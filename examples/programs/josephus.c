/* Ten people stand in a ring, and each third one leaves. Who leaves is freed at once: the pointer to it in the ring was moved
   on, and the one inside it leads to another. */
#include <stdio.h>
#include <stdlib.h>

struct person { struct person *next; int number; };

static struct person *ring(int people) {
  struct person *first = NULL;
  struct person *last = NULL;
  for (; people > 0; people--) {
    struct person *p = malloc(sizeof *p);
    p->number = people;
    p->next = first;
    if (!first) last = p;
    first = p;
  }
  last->next = first;
  return last;
}

int main(void) {
  struct person *before = ring(10);
  while (before->next != before) {
    struct person *leaving;
    int i;
    for (i = 1; i < 3; i++) before = before->next;
    leaving = before->next;
    printf("%d leaves\n", leaving->number);
    before->next = leaving->next;
    free(leaving);
  }
  printf("%d stays\n", before->number);
  free(before);
  return 0;
}
