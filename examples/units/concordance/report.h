/* Lists of the words of a table. Includes of text.h, tree.h and table.h stand before. */

/* All words in order, each with how often it stands and its lines. */
void report_words(const table *t, int width);

/* So many words, the most frequent first; of two that are as frequent the one that comes first in order. */
void report_frequent(const table *t, int most);

/* The words of a line, in order. */
void report_line(const table *t, int line);

/* How many words there are of each length, as bars. */
void report_lengths(const table *t);
