/* Reads words, keeps each in a list on the heap in the order of their first coming, and counts how often each came.
   Nothing is freed, so the list stands until the program ends. The answer is the number of different words. */
#include <stdio.h>
#include <stdlib.h>
#include <string.h>

struct entry { char *text; int count; struct entry *next; };

char word[32];
struct entry *first;
struct entry *last;

char *copy_of(char *text) {
  char *made = malloc(strlen(text) + 1);
  char *at = made;
  while (*text) *at++ = *text++;
  return made;
}

void add(char *text) {
  struct entry *e;
  for (e = first; e; e = e->next)
    if (strcmp(e->text, text) == 0) {
      e->count++;
      return;
    }
  e = malloc(sizeof *e);
  e->text = copy_of(text);
  e->count = 1;
  if (last) last->next = e;
  else first = e;
  last = e;
}

int read_word(void) {
  int c = getchar();
  int length = 0;
  while (c == ' ' || c == '\n') c = getchar();
  while (c != EOF && c != ' ' && c != '\n') {
    if (length < 31) word[length++] = c;
    c = getchar();
  }
  word[length] = 0;
  return length;
}

int main(void) {
  struct entry *e;
  int different = 0;
  while (read_word()) add(word);
  for (e = first; e; e = e->next) {
    printf("%-8s%3d\n", e->text, e->count);
    different++;
  }
  return different;
}
