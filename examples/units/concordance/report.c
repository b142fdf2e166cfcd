#include "text.h"
#include "tree.h"
#include "table.h"
#include "report.h"
#include <stdio.h>
#include <stdlib.h>
#include <string.h>

enum { LONGEST = 20 };

/* How many lines were written. */
static int count;

/* The entries of a table. The array is the caller's; the entries stay the table's. */
static const entry **entries_of(const table *t)
{
    const entry **all = calloc(t->size + 1, sizeof *all);
    size_t n = 0;
    want(all);
    for (size_t i = 0; i < t->width; i++) {
        const entry *e;
        for (e = t->rows[i]; e; e = e->next) all[n++] = e;
    }
    return all;
}

/* Whether one entry comes before another: by its word alone, or by how often it stands first. */
static int comes_before(const entry *a, const entry *b, int by_total)
{
    if (by_total && a->total != b->total) return a->total > b->total;
    return strcmp(a->word, b->word) < 0;
}

static void swap(const entry **all, int i, int j)
{
    const entry *e = all[i];
    all[i] = all[j];
    all[j] = e;
}

/* A heap sort: the last to come is at the root. */
static void sink(const entry **all, int root, int size, int by_total)
{
    for (;;) {
        int child = 2 * root + 1;
        if (child >= size) return;
        if (child + 1 < size && comes_before(all[child], all[child + 1], by_total)) child++;
        if (!comes_before(all[root], all[child], by_total)) return;
        swap(all, root, child);
        root = child;
    }
}

static void sort(const entry **all, int size, int by_total)
{
    int i;
    for (i = size / 2 - 1; i >= 0; i--) sink(all, i, size, by_total);
    for (i = size - 1; i > 0; i--) {
        swap(all, 0, i);
        sink(all, 0, i, by_total);
    }
}

static void write_line(const struct text *line)
{
    puts(line->bytes);
    count++;
}

/* The numbers of a tree in order, with a count where a number stands more than once. */
static void add_lines(struct text *line, const struct tree *lines)
{
    int number = tree_next(lines, -1, -1);
    int first = 1;
    while (number != -1) {
        if (!first) text_add(line, ", ");
        first = 0;
        text_add_number(line, number);
        if (tree_count(lines, number) > 1) {
            text_add(line, " (");
            text_add_number(line, tree_count(lines, number));
            text_add(line, ")");
        }
        number = tree_next(lines, number, -1);
    }
}

void report_words(const table *t, int width)
{
    const entry **all = entries_of(t);
    struct text line;
    sort(all, (int)t->size, 0);
    text_begin(&line);
    for (size_t i = 0; i < t->size; i++) {
        text_clear(&line);
        text_add(&line, all[i]->word);
        text_pad(&line, width);
        text_put(&line, ' ');
        add_lines(&line, all[i]->lines);
        write_line(&line);
    }
    text_end(&line);
    free(all);
}

void report_frequent(const table *t, int most)
{
    const entry **all = entries_of(t);
    int size = (int)t->size;
    sort(all, size, 1);
    if (most > size) most = size;
    for (int i = 0; i < most; i++) printf("%3d %s\n", all[i]->total, all[i]->word);
    count += most;
    free(all);
}

void report_line(const table *t, int number)
{
    const entry **all = entries_of(t);
    struct text line;
    sort(all, (int)t->size, 0);
    text_begin(&line);
    for (size_t i = 0; i < t->size; i++) {
        if (tree_count(all[i]->lines, number) == 0) continue;
        if (line.length > 0) text_put(&line, ' ');
        text_add(&line, all[i]->word);
    }
    write_line(&line);
    text_end(&line);
    free(all);
}

void report_lengths(const table *t)
{
    int lengths[LONGEST + 1] = { 0 };
    for (size_t i = 0; i < t->width; i++) {
        const entry *e;
        for (e = t->rows[i]; e; e = e->next) {
            size_t length = strlen(e->word);
            lengths[length < LONGEST ? length : LONGEST]++;
        }
    }
    for (int i = 0; i <= LONGEST; i++) {
        if (lengths[i] == 0) continue;
        printf("%2d ", i);
        for (int k = 0; k < lengths[i]; k++) putchar('#');
        putchar('\n');
        count++;
    }
}

int lines_written(void)
{
    return count;
}
