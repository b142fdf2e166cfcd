/* A queue of structs by value, in a ring that is a local of main. */
#include <stdio.h>
#include <stdlib.h>

struct point { int x, y; };
struct shape { struct point at; int sides; char name[9]; struct shape *next; };

static int area(const struct shape *s) { return s->sides == 4 ? s->at.x * s->at.y : s->at.x * s->at.y / 2; }

static struct shape *list(const struct shape *ring, int first, int n) {
  struct shape *head = NULL, *new;
  int i;
  for (i = n - 1; i >= 0; i--) {
    new = malloc(sizeof *new);
    *new = ring[(first + i) % 4];
    new->next = head;
    head = new;
  }
  return head;
}

int main(void) {
  struct shape ring[4] = {{{3, 4}, 3, "triangle", 0}, {{2, 5}, 4, "box", 0}, {{6, 6}, 4, "square", 0}, {{1, 9}, 3, "sliver", 0}};
  struct shape *all, *one;
  int total = 0;
  ring[1] = ring[2];
  ring[1].at.x = 7;
  all = list(ring, 2, 4);
  while (all) {
    one = all;
    printf("%-8s %2d %2d %3d\n", one->name, one->at.x, one->at.y, area(one));
    total += area(one);
    all = one->next;
    free(one);
    one = NULL;
  }
  printf("%d\n", total);
  return total % 256;
}
