/* What the input says: lines of text, and lines that begin with a dot, which are commands. */
typedef enum command { NONE, WORDS, FREQUENT, LINE, LENGTHS, DROP, PRUNE, STATISTICS, CLEAR, STOP } command;

/* Reads one line without its end. Answers 0 at the end of the input. */
int read_line(struct text *line);

/* The command of a line, or NONE where it has none. */
command command_of(const char *line);

/* What stands behind the first word of a line. */
const char *argument_of(const char *line);

/* The number with which bytes begin, or `otherwise`. */
int number_in(const char *bytes, int otherwise);

/* The next word of a line from a place on, in small letters. Moves the place behind it. Answers 0 where there is none. */
int next_word(const char *line, size_t *place, struct text *word);
