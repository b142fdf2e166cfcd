#include "text.h"
#include "tree.h"
#include <stdlib.h>

/* How many nodes there are. */
static int count;

static int greater(int a, int b)
{
    return a > b ? a : b;
}

int tree_height(const struct tree *tree)
{
    return tree ? tree->height : 0;
}

static void measure(struct tree *tree)
{
    tree->height = 1 + greater(tree_height(tree->left), tree_height(tree->right));
}

static int lean(const struct tree *tree)
{
    return tree_height(tree->left) - tree_height(tree->right);
}

static struct tree *make(int number)
{
    struct tree *tree = malloc(sizeof *tree);
    want(tree);
    tree->number = number;
    tree->count = 1;
    tree->height = 1;
    tree->left = 0;
    tree->right = 0;
    count++;
    return tree;
}

/* The left child comes up, and the tree becomes its right child. */
static struct tree *turn_right(struct tree *tree)
{
    struct tree *up = tree->left;
    tree->left = up->right;
    up->right = tree;
    measure(tree);
    measure(up);
    return up;
}

static struct tree *turn_left(struct tree *tree)
{
    struct tree *up = tree->right;
    tree->right = up->left;
    up->left = tree;
    measure(tree);
    measure(up);
    return up;
}

/* A tree whose sides differ by two at most becomes one whose sides differ by one at most. */
static struct tree *balance(struct tree *tree)
{
    measure(tree);
    if (lean(tree) > 1) {
        if (lean(tree->left) < 0) tree->left = turn_left(tree->left);
        return turn_right(tree);
    }
    if (lean(tree) < -1) {
        if (lean(tree->right) > 0) tree->right = turn_right(tree->right);
        return turn_left(tree);
    }
    return tree;
}

struct tree *tree_add(struct tree *tree, int number)
{
    if (!tree) return make(number);
    if (number == tree->number) {
        tree->count++;
        return tree;
    }
    if (number < tree->number) tree->left = tree_add(tree->left, number);
    else tree->right = tree_add(tree->right, number);
    return balance(tree);
}

static struct tree *least(struct tree *tree)
{
    while (tree->left) tree = tree->left;
    return tree;
}

/* The tree without its least node, which is not freed. */
static struct tree *without_least(struct tree *tree)
{
    if (!tree->left) return tree->right;
    tree->left = without_least(tree->left);
    return balance(tree);
}

/* A node that nothing points to any more. */
static void drop(struct tree *tree)
{
    tree->left = 0;
    tree->right = 0;
    count--;
    free(tree);
}

static struct tree *without_top(struct tree *tree)
{
    struct tree *left = tree->left;
    struct tree *right = tree->right;
    struct tree *top;
    drop(tree);
    if (!right) return left;
    top = least(right);
    right = without_least(right);
    top->left = left;
    top->right = right;
    return balance(top);
}

struct tree *tree_remove(struct tree *tree, int number)
{
    struct tree *side;
    if (!tree) return 0;
    if (number == tree->number) return without_top(tree);
    /* The side is given up before a node of it may be freed. */
    if (number < tree->number) {
        side = tree->left;
        tree->left = 0;
        tree->left = tree_remove(side, number);
    } else {
        side = tree->right;
        tree->right = 0;
        tree->right = tree_remove(side, number);
    }
    return balance(tree);
}

static const struct tree *find(const struct tree *tree, int number)
{
    while (tree && tree->number != number) {
        tree = number < tree->number ? tree->left : tree->right;
    }
    return tree;
}

int tree_count(const struct tree *tree, int number)
{
    const struct tree *node = find(tree, number);
    return node ? node->count : 0;
}

int tree_size(const struct tree *tree)
{
    if (!tree) return 0;
    return tree_size(tree->left) + 1 + tree_size(tree->right);
}

int tree_next(const struct tree *tree, int above, int otherwise)
{
    int found = otherwise;
    while (tree) {
        if (tree->number > above) {
            found = tree->number;
            tree = tree->left;
        } else {
            tree = tree->right;
        }
    }
    return found;
}

/* The same between two bounds. */
static int is_sound(const struct tree *tree, int low, int high)
{
    if (!tree) return 1;
    if (tree->number < low || tree->number > high) return 0;
    if (tree->height != 1 + greater(tree_height(tree->left), tree_height(tree->right))) return 0;
    if (lean(tree) < -1 || lean(tree) > 1) return 0;
    return is_sound(tree->left, low, tree->number - 1) && is_sound(tree->right, tree->number + 1, high);
}

int tree_is_sound(const struct tree *tree)
{
    return is_sound(tree, -1000000, 1000000);
}

void tree_free(struct tree *tree)
{
    struct tree *left, *right;
    if (!tree) return;
    left = tree->left;
    right = tree->right;
    drop(tree);
    tree_free(left);
    tree_free(right);
}

int tree_nodes(void)
{
    return count;
}
