/* The buffer of a line editor, with undo. Commands are lines of the input:

     a TEXT      adds a line behind the current one, which it becomes
     i TEXT      adds a line before the current one, which it becomes
     c TEXT      changes the current line
     d           deletes the current line; the next one becomes current
     s OLD/NEW   replaces the first OLD in the current line
     g N         goes to line N
     j           joins the next line to the current one
     f WORD      goes to the next line that has WORD
     p           prints the current line
     l           prints all lines, with a sign at the current one
     u           takes the last change back
     q           ends

   The lines are a list with links both ways, and each change keeps what it took out, so that `u` can put it back. A line
   that was deleted belongs to the list of changes then: nothing in the buffer points to it, and it points to nothing. */
#include <stdio.h>
#include <stdlib.h>
#include <string.h>

struct line {
  char *text;
  struct line *before;
  struct line *after;
};

enum what { ADDED, DELETED, CHANGED };

struct change {
  enum what what;
  int number;              /* of the line */
  struct line *line;       /* the line that was deleted */
  char *text;              /* the text before it was changed */
  int with_next;           /* the change above belongs to the same command */
  struct change *next;
};

struct buffer {
  struct line *first;
  struct line *last;
  int lines;
  int current;             /* its number, 0 where there is no line */
  struct change *changes;  /* the last one first */
};

static void *no_null(void *p) {
  if (!p) {
    puts("no memory");
    exit(3);
  }
  return p;
}

/* ---- texts */

static char *copied(const char *text, int length) {
  char *made = malloc(length + 1);
  no_null(made);
  memcpy(made, text, length);
  made[length] = 0;
  return made;
}

/* The place of a word in a text, or -1. */
static int place_of(const char *text, const char *word) {
  int at, i;
  for (at = 0;; at++) {
    for (i = 0; word[i] && text[at + i] == word[i]; i++) continue;
    if (!word[i]) return at;
    if (!text[at]) return -1;
  }
}

/* The text with `length` bytes at `at` replaced. */
static char *replaced(const char *text, int at, int length, const char *by) {
  int whole = strlen(text), more = strlen(by);
  char *made = malloc(whole - length + more + 1);
  no_null(made);
  memcpy(made, text, at);
  memcpy(made + at, by, more);
  memcpy(made + at + more, text + at + length, whole - at - length + 1);
  return made;
}

/* ---- the list of lines */

static struct line *line_at(struct buffer *b, int number) {
  struct line *it = b->first;
  while (--number > 0) it = it->after;
  return it;
}

/* Puts a line into the buffer, as the one of this number. */
static void link_line(struct buffer *b, struct line *made, int number) {
  struct line *after = number > b->lines ? NULL : line_at(b, number);
  struct line *before = after ? after->before : b->last;
  made->before = before;
  made->after = after;
  if (before) before->after = made; else b->first = made;
  if (after) after->before = made; else b->last = made;
  b->lines++;
  b->current = number;
}

/* Takes a line out of the buffer: nothing of the buffer points to it any more, and it points to nothing of the buffer. */
static struct line *unlink_line(struct buffer *b, int number) {
  struct line *it = line_at(b, number);
  if (it->before) it->before->after = it->after; else b->first = it->after;
  if (it->after) it->after->before = it->before; else b->last = it->before;
  it->before = NULL;
  it->after = NULL;
  b->lines--;
  b->current = number > b->lines ? b->lines : number;
  return it;
}

/* A text is freed before the line that has it, so the line gives it up first. */
static void free_line(struct line *it) {
  char *text = it->text;
  it->text = NULL;
  free(text);
  free(it);
}

/* ---- changes, and how they are taken back */

static struct change *remember(struct buffer *b, enum what what, int number) {
  struct change *c = malloc(sizeof *c);
  no_null(c);
  c->what = what;
  c->number = number;
  c->line = NULL;
  c->text = NULL;
  c->with_next = 0;
  c->next = b->changes;
  b->changes = c;
  return c;
}

static void add_line(struct buffer *b, const char *text, int number) {
  struct line *made = malloc(sizeof *made);
  no_null(made);
  made->text = copied(text, strlen(text));
  link_line(b, made, number);
  remember(b, ADDED, number);
}

static void delete_line(struct buffer *b, int number) {
  struct change *c = remember(b, DELETED, number);
  c->line = unlink_line(b, number);
}

static void change_line(struct buffer *b, int number, char *text) {
  struct line *it = line_at(b, number);
  struct change *c = remember(b, CHANGED, number);
  c->text = it->text;
  it->text = text;
  b->current = number;
}

/* Takes the last change off the list. It still has what the change took out. */
static struct change *last_change(struct buffer *b) {
  struct change *c = b->changes;
  b->changes = c->next;
  c->next = NULL;
  return c;
}

static void take_back(struct buffer *b, struct change *c) {
  struct line *it;
  char *text;
  switch (c->what) {
  case ADDED:
    free_line(unlink_line(b, c->number));
    break;
  case DELETED:
    it = c->line;
    c->line = NULL;
    link_line(b, it, c->number);
    break;
  case CHANGED:
    it = line_at(b, c->number);
    text = it->text;
    it->text = c->text;
    c->text = NULL;
    free(text);
    b->current = c->number;
    break;
  }
}

static void undo(struct buffer *b) {
  int more;
  if (!b->changes) {
    puts("? nothing to take back");
    return;
  }
  do {
    struct change *c = last_change(b);
    more = c->with_next;
    take_back(b, c);
    free(c);
  } while (more);
}

static void free_change(struct change *c) {
  struct line *it = c->line;
  char *text = c->text;
  c->line = NULL;
  c->text = NULL;
  if (it) free_line(it);
  free(text);
  free(c);
}

static void free_all(struct buffer *b) {
  while (b->lines) free_line(unlink_line(b, b->lines));
  while (b->changes) free_change(last_change(b));
}

/* ---- commands */

static void list(struct buffer *b) {
  struct line *it;
  int number = 0;
  for (it = b->first; it; it = it->after) {
    number++;
    printf("%c%3d %s\n", number == b->current ? '>' : ' ', number, it->text);
  }
}

static void substitute(struct buffer *b, char *rule) {
  char *text = line_at(b, b->current)->text;
  int slash = place_of(rule, "/"), at;
  if (slash < 0) {
    puts("? OLD/NEW is wanted");
    return;
  }
  rule[slash] = 0;
  at = place_of(text, rule);
  if (at < 0)
    puts("? it is not there");
  else
    change_line(b, b->current, replaced(text, at, slash, rule + slash + 1));
}

static void join(struct buffer *b) {
  int number = b->current;
  struct line *it = line_at(b, number);
  if (!it->after) {
    puts("? no next line");
    return;
  }
  change_line(b, number, replaced(it->text, strlen(it->text), 0, it->after->text));
  delete_line(b, number + 1);
  b->changes->with_next = 1;
  b->current = number;
}

static void find(struct buffer *b, const char *word) {
  int i;
  for (i = 1; i <= b->lines; i++) {
    int number = (b->current + i - 1) % b->lines + 1;
    if (place_of(line_at(b, number)->text, word) >= 0) {
      b->current = number;
      return;
    }
  }
  puts("? it is not there");
}

static int number_in(const char *word) {
  int n = 0;
  for (; *word >= '0' && *word <= '9' && n < 100000; word++) n = 10 * n + *word - '0';
  return n;
}

/* Does what a command says, and answers whether the editor goes on. */
static int obey(struct buffer *b, int command, char *rest) {
  if (command == 'q') return 0;
  if (command == 'a') {
    add_line(b, rest, b->current + 1);
  } else if (command == 'l') {
    list(b);
  } else if (command == 'u') {
    undo(b);
  } else if (!b->lines) {
    puts("? no line");
  } else {
    switch (command) {
    case 'i': add_line(b, rest, b->current); break;
    case 'c': change_line(b, b->current, copied(rest, strlen(rest))); break;
    case 'd': delete_line(b, b->current); break;
    case 's': substitute(b, rest); break;
    case 'j': join(b); break;
    case 'f': find(b, rest); break;
    case 'p': puts(line_at(b, b->current)->text); break;
    case 'g':
      if (number_in(rest) < 1 || number_in(rest) > b->lines) puts("? no such line");
      else b->current = number_in(rest);
      break;
    default: puts("? no such command");
    }
  }
  return 1;
}

/* Reads a line of at most 99 bytes without its end, and answers whether there was one. */
static int read_line(char *to) {
  int c, length = 0;
  while ((c = getchar()) != EOF && c != '\n')
    if (length < 99) to[length++] = c;
  to[length] = 0;
  return c != EOF || length > 0;
}

int main(void) {
  struct buffer b = {NULL, NULL, 0, 0, NULL};
  char words[100];
  while (read_line(words))
    if (!obey(&b, words[0], words[0] && words[1] ? words + 2 : "")) break;
  printf("%d lines\n", b.lines);
  free_all(&b);
  return 0;
}
