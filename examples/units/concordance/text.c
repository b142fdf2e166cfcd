#include "text.h"
#include <stdio.h>
#include <stdlib.h>
#include <string.h>

enum { FIRST_ROOM = 16 };

/* How often a text had to grow. Each unit of this program has a count of its own. */
static int count;

void want(const void *block)
{
    if (!block) {
        puts("no memory");
        exit(9);
    }
}

void text_begin(struct text *text)
{
    text->bytes = malloc(FIRST_ROOM);
    want(text->bytes);
    text->bytes[0] = 0;
    text->length = 0;
    text->room = FIRST_ROOM;
}

void text_end(struct text *text)
{
    char *bytes = text->bytes;
    text->bytes = 0;
    text->length = 0;
    text->room = 0;
    free(bytes);
}

void text_clear(struct text *text)
{
    text->length = 0;
    text->bytes[0] = 0;
}

/* The old block is freed by realloc, so nothing may hold it: the struct gives it up first. */
static void grow(struct text *text)
{
    char *bytes = text->bytes;
    text->bytes = 0;
    text->room = 2 * text->room;
    bytes = realloc(bytes, text->room);
    want(bytes);
    text->bytes = bytes;
    count = count + 1;
}

void text_put(struct text *text, int byte)
{
    if (text->length + 1 == text->room) grow(text);
    text->bytes[text->length] = (char)byte;
    text->length = text->length + 1;
    text->bytes[text->length] = 0;
}

void text_add(struct text *text, const char *bytes)
{
    while (*bytes) {
        text_put(text, *bytes);
        bytes++;
    }
}

/* Digits from the right, and then turned round. */
void text_add_number(struct text *text, int number)
{
    char digits[12];
    int length = 0;
    if (number < 0) {
        text_put(text, '-');
        number = -number;
    }
    do {
        digits[length++] = (char)('0' + number % 10);
        number /= 10;
    } while (number);
    while (length > 0) text_put(text, digits[--length]);
}

void text_pad(struct text *text, size_t width)
{
    while (text->length < width) text_put(text, ' ');
}

char *text_copy(const char *bytes)
{
    char *copy = malloc(strlen(bytes) + 1);
    want(copy);
    memcpy(copy, bytes, strlen(bytes) + 1);
    return copy;
}

int text_starts(const char *bytes, const char *front)
{
    while (*front) {
        if (*bytes != *front) return 0;
        bytes++;
        front++;
    }
    return 1;
}

int texts_grown(void)
{
    return count;
}
