#include "text.h"
#include "reader.h"
#include <stdio.h>
#include <string.h>

/* How many lines were read. */
static int count;

/* Whether the end was reached. */
static int ended;

int read_line(struct text *line)
{
    int byte;
    text_clear(line);
    if (ended) return 0;
    for (;;) {
        byte = getchar();
        if (byte == EOF) {
            ended = 1;
            break;
        }
        if (byte == '\n') break;
        text_put(line, byte);
    }
    if (ended && line->length == 0) return 0;
    count++;
    return 1;
}

static int is_letter(int byte)
{
    return (byte >= 'a' && byte <= 'z') || (byte >= 'A' && byte <= 'Z');
}

static int small(int byte)
{
    return byte >= 'A' && byte <= 'Z' ? byte - 'A' + 'a' : byte;
}

static int is(const char *line, const char *name)
{
    size_t length = strlen(name);
    return text_starts(line, name) && (line[length] == 0 || line[length] == ' ');
}

command command_of(const char *line)
{
    if (*line != '.') return NONE;
    line++;
    if (is(line, "words")) return WORDS;
    if (is(line, "frequent")) return FREQUENT;
    if (is(line, "line")) return LINE;
    if (is(line, "lengths")) return LENGTHS;
    if (is(line, "drop")) return DROP;
    if (is(line, "prune")) return PRUNE;
    if (is(line, "statistics")) return STATISTICS;
    if (is(line, "clear")) return CLEAR;
    if (is(line, "stop")) return STOP;
    return NONE;
}

const char *argument_of(const char *line)
{
    while (*line && *line != ' ') line++;
    while (*line == ' ') line++;
    return line;
}

int number_in(const char *bytes, int otherwise)
{
    int number = 0;
    if (*bytes < '0' || *bytes > '9') return otherwise;
    while (*bytes >= '0' && *bytes <= '9') {
        number = 10 * number + (*bytes - '0');
        if (number > 100000) return otherwise;
        bytes++;
    }
    return number;
}

int next_word(const char *line, size_t *place, struct text *word)
{
    size_t i = *place;
    text_clear(word);
    while (line[i] && !is_letter(line[i])) i++;
    while (is_letter(line[i]) || (line[i] == '\'' && is_letter(line[i + 1]))) {
        text_put(word, small(line[i]));
        i++;
    }
    *place = i;
    return word->length > 0;
}

int lines_read(void)
{
    return count;
}
