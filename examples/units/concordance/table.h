/* A hash table of words, each with the numbers of the lines in which it stands. */
typedef struct entry {
    char *word;
    struct tree *lines;
    int total;
    unsigned hash;
    struct entry *next;
} entry;

typedef struct table {
    entry **rows;
    size_t width;
    size_t size;
} table;

void table_begin(table *t);
void table_end(table *t);

/* One more of a word in a line. */
void table_note(table *t, const char *word, int line);

/* The entry of a word, or null. */
entry *table_find(const table *t, const char *word);

/* Takes a word out. Answers whether it was there. */
int table_drop(table *t, const char *word);

/* Takes out each word that stands in fewer lines. Answers how many these are. */
int table_prune(table *t, int lines);

/* The length of the longest row. */
int table_longest(const table *t);
