#include "text.h"
#include "tree.h"
#include "table.h"
#include "report.h"
#include "reader.h"
#include <stdio.h>
#include <stdlib.h>

/* Each unit has a count of its own; this one is of commands. */
static int count;

/* The number of the line that is read, of those with text. */
static int line_number;

int texts_grown(void);
int tree_nodes(void);
int tables_grown(void);
int lines_written(void);
int lines_read(void);

static void note_line(table *t, const char *line, struct text *word)
{
    size_t place = 0;
    line_number++;
    while (next_word(line, &place, word)) table_note(t, word->bytes, line_number);
}

/* Whether each tree of a table is one. */
static int is_sound(const table *t)
{
    for (size_t i = 0; i < t->width; i++) {
        const entry *e;
        for (e = t->rows[i]; e; e = e->next) {
            if (!tree_is_sound(e->lines)) return 0;
        }
    }
    return 1;
}

static void statistics(const table *t)
{
    printf("%u words, %d nodes, rows of at most %d, %s\n", (unsigned)t->size, tree_nodes(), table_longest(t), is_sound(t) ? "sound" : "broken");
    printf("%d lines read, %d written, %d commands, %d tables grown\n", lines_read(), lines_written(), count, tables_grown());
}

static void drop(table *t, const char *word)
{
    printf("%s: %s\n", word, table_drop(t, word) ? "dropped" : "not there");
}

static void clear(table *t)
{
    table_end(t);
    table_begin(t);
    line_number = 0;
}

/* Does what a line says. Answers 0 where it ends the run. */
static int obey(table *t, const char *line, command what)
{
    const char *argument = argument_of(line);
    count++;
    switch (what) {
    case WORDS: report_words(t, number_in(argument, 12)); break;
    case FREQUENT: report_frequent(t, number_in(argument, 10)); break;
    case LINE: report_line(t, number_in(argument, line_number)); break;
    case LENGTHS: report_lengths(t); break;
    case DROP: drop(t, argument); break;
    case PRUNE: printf("%d pruned\n", table_prune(t, number_in(argument, 2))); break;
    case STATISTICS: statistics(t); break;
    case CLEAR: clear(t); break;
    case STOP: return 0;
    default: printf("?\n");
    }
    return 1;
}

/* A tree by itself: numbers come and go. */
static int try_tree(void)
{
    struct tree *tree = 0;
    int sum = 0;
    for (int i = 0; i < 200; i++) tree = tree_add(tree, i * 37 % 101);
    if (tree_size(tree) != 101 || tree_height(tree) > 8 || !tree_is_sound(tree)) return 1;
    for (int i = 0; i < 101; i += 2) tree = tree_remove(tree, i);
    if (tree_size(tree) != 50 || !tree_is_sound(tree)) return 2;
    for (int n = tree_next(tree, -1, -1); n != -1; n = tree_next(tree, n, -1)) sum += n * tree_count(tree, n);
    tree_free(tree);
    printf("sum %d, nodes left %d\n", sum, tree_nodes());
    return 0;
}

int main(void)
{
    table t;
    struct text line, word;
    int goes_on = 1, failed = try_tree();
    if (failed) return failed;
    table_begin(&t);
    text_begin(&line);
    text_begin(&word);
    while (goes_on && read_line(&line)) {
        command what = command_of(line.bytes);
        if (*line.bytes == '.') goes_on = obey(&t, line.bytes, what);
        else note_line(&t, line.bytes, &word);
    }
    table_end(&t);
    text_end(&word);
    text_end(&line);
    printf("%d nodes left, texts grew %d times\n", tree_nodes(), texts_grown());
    return 0;
}
