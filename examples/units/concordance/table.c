#include "text.h"
#include "tree.h"
#include "table.h"
#include <stdlib.h>
#include <string.h>

enum { FIRST_WIDTH = 8 };

/* How often a table had to grow. */
static int count;

static unsigned hash_of(const char *word)
{
    unsigned hash = 2166136261u;
    while (*word) {
        hash = hash ^ (unsigned char)*word++;
        hash = hash * 16777619u;
    }
    return hash;
}

static entry **rows_of(size_t width)
{
    entry **rows = calloc(width, sizeof *rows);
    want(rows);
    return rows;
}

void table_begin(table *t)
{
    t->rows = rows_of(FIRST_WIDTH);
    t->width = FIRST_WIDTH;
    t->size = 0;
}

static entry *make(const char *word, unsigned hash)
{
    entry *e = malloc(sizeof *e);
    want(e);
    e->word = text_copy(word);
    e->lines = 0;
    e->total = 0;
    e->hash = hash;
    e->next = 0;
    return e;
}

/* An entry that no row has any more. */
static void drop(entry *e)
{
    char *word = e->word;
    struct tree *lines = e->lines;
    e->word = 0;
    e->lines = 0;
    e->next = 0;
    free(word);
    tree_free(lines);
    free(e);
}

static void drop_row(entry *e)
{
    while (e) {
        entry *next = e->next;
        drop(e);
        e = next;
    }
}

void table_end(table *t)
{
    entry **rows = t->rows;
    for (size_t i = 0; i < t->width; i++) {
        entry *first = rows[i];
        rows[i] = 0;
        drop_row(first);
    }
    t->rows = 0;
    t->width = 0;
    t->size = 0;
    free(rows);
}

/* Entries move, none is made or freed. */
static void grow(table *t)
{
    size_t width = 2 * t->width;
    entry **old = t->rows;
    entry **rows = rows_of(width);
    for (size_t i = 0; i < t->width; i++) {
        entry *e = old[i];
        old[i] = 0;
        while (e) {
            entry *next = e->next;
            e->next = rows[e->hash % width];
            rows[e->hash % width] = e;
            e = next;
        }
    }
    t->rows = rows;
    t->width = width;
    count++;
    free(old);
}

static entry *find(const table *t, const char *word, unsigned hash)
{
    entry *e = t->rows[hash % t->width];
    while (e && (e->hash != hash || strcmp(e->word, word) != 0)) e = e->next;
    return e;
}

entry *table_find(const table *t, const char *word)
{
    return find(t, word, hash_of(word));
}

void table_note(table *t, const char *word, int line)
{
    unsigned hash = hash_of(word);
    entry *e = find(t, word, hash);
    if (!e) {
        if (t->size == t->width) grow(t);
        e = make(word, hash);
        e->next = t->rows[hash % t->width];
        t->rows[hash % t->width] = e;
        t->size++;
    }
    e->lines = tree_add(e->lines, line);
    e->total++;
}

/* A row without an entry, which is freed. */
static entry *without(entry *row, entry *e)
{
    entry *last;
    if (row == e) return e->next;
    last = row;
    while (last->next != e) last = last->next;
    last->next = e->next;
    return row;
}

static void take_out(table *t, entry *e)
{
    size_t place = e->hash % t->width;
    t->rows[place] = without(t->rows[place], e);
    t->size--;
    drop(e);
}

int table_drop(table *t, const char *word)
{
    entry *e = table_find(t, word);
    if (!e) return 0;
    take_out(t, e);
    return 1;
}

int table_prune(table *t, int lines)
{
    int dropped = 0;
    for (size_t i = 0; i < t->width; i++) {
        entry *e = t->rows[i];
        while (e) {
            entry *next = e->next;
            if (tree_size(e->lines) < lines) {
                take_out(t, e);
                dropped++;
            }
            e = next;
        }
    }
    return dropped;
}

int table_longest(const table *t)
{
    int longest = 0;
    for (size_t i = 0; i < t->width; i++) {
        int length = 0;
        const entry *e;
        for (e = t->rows[i]; e; e = e->next) length++;
        if (length > longest) longest = length;
    }
    return longest;
}

int tables_grown(void)
{
    return count;
}
