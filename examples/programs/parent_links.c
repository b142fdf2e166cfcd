/* A search tree whose nodes know their parents, walked in order without recursion. Parent and child point at each other, so
   no node could be freed alone: a scope puts the check off until all of them are freed. */
#include <stdio.h>
#include <stdlib.h>

struct node { struct node *parent; struct node *left; struct node *right; int key; };

static struct node *insert(struct node *root, int key) {
  struct node *n = malloc(sizeof *n);
  struct node *at = root;
  n->key = key;
  if (!root) return n;
  for (;;) {
    if (key < at->key) {
      if (!at->left) { at->left = n; break; }
      at = at->left;
    } else {
      if (!at->right) { at->right = n; break; }
      at = at->right;
    }
  }
  n->parent = at;
  return root;
}

static struct node *least(struct node *n) {
  while (n->left) n = n->left;
  return n;
}

static struct node *next(struct node *n) {
  if (n->right) return least(n->right);
  while (n->parent && n->parent->right == n) n = n->parent;
  return n->parent;
}

static int drop(struct node *n) {
  int dropped;
  if (!n) return 0;
  dropped = drop(n->left) + drop(n->right) + 1;
  free(n);
  return dropped;
}

int main(void) {
  struct node *root = NULL;
  struct node *n;
  int c, number = 0, in = 0, dropped;
  while ((c = getchar()) != EOF) {
    if (c >= '0' && c <= '9') { number = 10 * number + (c - '0'); in = 1; }
    else if (in) { root = insert(root, number); number = 0; in = 0; }
  }
  if (!root) return 1;
  for (n = least(root); n; n = next(n)) printf("%d ", n->key);
  __delay_frees { dropped = drop(root); }
  printf("\n%d dropped\n", dropped);
  return 0;
}
