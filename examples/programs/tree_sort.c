/* Sorts numbers by a binary tree on the heap, and prints them with the depth of the tree.
   A line of the table of names stands for each depth. */
#include <stdio.h>
#include <stdlib.h>

struct node { long key; struct node *less, *more; };

char *names[] = {"empty", "flat", "low", "middle", "high"};
struct node *root;

int insert(struct node **at, long key) {
  int depth = 1;
  while (*at) {
    at = key < (*at)->key ? &(*at)->less : &(*at)->more;
    depth++;
  }
  *at = calloc(1, sizeof **at);
  (*at)->key = key;
  return depth;
}

void walk(struct node *n) {
  if (!n) return;
  walk(n->less);
  printf("%ld ", n->key);
  walk(n->more);
}

int main(void) {
  int c, sign = 1, depth = 0, digits = 0;
  long value = 0;
  do {
    c = getchar();
    if (c == '-') sign = -1;
    else if (c >= '0' && c <= '9') {
      value = 10 * value + (c - '0');
      digits++;
    } else {
      if (digits) {
        int d = insert(&root, sign * value);
        if (d > depth) depth = d;
      }
      value = 0;
      digits = 0;
      sign = 1;
    }
  } while (c != EOF);
  walk(root);
  putchar('\n');
  puts(names[depth < 4 ? depth : 4]);
  return depth;
}
