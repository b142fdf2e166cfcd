/* Ordered sets of numbers with a count for each: AVL trees. */
struct tree {
    int number;
    int count;
    int height;
    struct tree *left;
    struct tree *right;
};

/* The tree with one more of a number. */
struct tree *tree_add(struct tree *tree, int number);

/* The tree without a number, whatever its count. */
struct tree *tree_remove(struct tree *tree, int number);

/* How often a tree has a number. */
int tree_count(const struct tree *tree, int number);

/* How many different numbers a tree has. */
int tree_size(const struct tree *tree);

int tree_height(const struct tree *tree);

/* The least number above one, or `otherwise` where there is none. */
int tree_next(const struct tree *tree, int above, int otherwise);

/* Whether numbers ascend, heights are right and both sides of each node are of nearly the same height. */
int tree_is_sound(const struct tree *tree);

void tree_free(struct tree *tree);
