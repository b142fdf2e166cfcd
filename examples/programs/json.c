/* A JSON reader. It reads one value, prints it with two spaces of indent and its members in order of their names, and then
   says how many values there were and how deep they lay. A text that is no JSON is answered by a place and a reason.

   What shows here how frees are written: a vector that grows while nothing else points into it; a tree whose parts are freed
   before the whole, in one scope; and a way out at an error that frees what was made so far. */
#include <stdio.h>
#include <stdlib.h>
#include <string.h>

enum kind { NOTHING, BOOLEAN, NUMBER, STRING, ARRAY, OBJECT };

enum { MOST_DEPTH = 64 };

struct text {
  char *bytes;
  int length;
  int room;
};

struct value {
  enum kind kind;
  int is_true;
  char *text;              /* of a number as it was written, or of a string */
  struct member *first;    /* of an array or an object */
};

struct member {
  char *name;              /* NULL in an array */
  struct value *value;
  struct member *next;
};

struct reader {
  int next;                /* the byte that comes, or EOF */
  int line;
  int column;
  int depth;
  int deepest;
  int values;
  const char *fault;       /* why the text is no JSON, or NULL */
};

static void no_memory(void) {
  puts("no memory");
  exit(3);
}

/* ---- texts that grow */

static void add(struct text *t, int byte) {
  if (t->length == t->room) {
    int room = t->room ? 2 * t->room : 8;
    char *old = t->bytes;
    t->bytes = NULL;
    t->bytes = realloc(old, room);
    if (!t->bytes) no_memory();
    t->room = room;
  }
  t->bytes[t->length++] = byte;
}

/* ---- values */

static struct value *new_value(struct reader *r, enum kind kind) {
  struct value *v = malloc(sizeof *v);
  if (!v) no_memory();
  v->kind = kind;
  v->is_true = 0;
  v->text = NULL;
  v->first = NULL;
  r->values++;
  return v;
}

/* Frees a value and all below it. It is called in a scope that puts the check off, since a part is freed while the whole
   still points to it. */
static void drop(struct value *v) {
  struct member *m, *next;
  if (!v) return;
  for (m = v->first; m; m = next) {
    next = m->next;
    drop(m->value);
    free(m->name);
    free(m);
  }
  free(v->text);
  free(v);
}

/* ---- reading */

static void advance(struct reader *r) {
  if (r->next == '\n') {
    r->line++;
    r->column = 0;
  }
  r->next = getchar();
  r->column++;
}

static void skip(struct reader *r) {
  while (r->next == ' ' || r->next == '\t' || r->next == '\n' || r->next == '\r') advance(r);
}

static int fail(struct reader *r, const char *why) {
  if (!r->fault) r->fault = why;
  return 0;
}

static int takes(struct reader *r, int byte) {
  if (r->next != byte) return 0;
  advance(r);
  return 1;
}

static int is_digit(int byte) { return byte >= '0' && byte <= '9'; }

static int hex_value(int byte) {
  if (is_digit(byte)) return byte - '0';
  if (byte >= 'a' && byte <= 'f') return byte - 'a' + 10;
  if (byte >= 'A' && byte <= 'F') return byte - 'A' + 10;
  return -1;
}

/* Adds a character of Unicode as UTF-8 writes it. */
static void add_character(struct text *t, int c) {
  if (c < 0x80) {
    add(t, c);
  } else if (c < 0x800) {
    add(t, 0xc0 | c >> 6);
    add(t, 0x80 | (c & 0x3f));
  } else {
    add(t, 0xe0 | c >> 12);
    add(t, 0x80 | (c >> 6 & 0x3f));
    add(t, 0x80 | (c & 0x3f));
  }
}

static int read_escape(struct reader *r, struct text *t) {
  int c = r->next, digits, value = 0;
  advance(r);
  switch (c) {
  case '"': case '\\': case '/': add(t, c); return 1;
  case 'b': add(t, '\b'); return 1;
  case 'f': add(t, '\f'); return 1;
  case 'n': add(t, '\n'); return 1;
  case 'r': add(t, '\r'); return 1;
  case 't': add(t, '\t'); return 1;
  case 'u':
    for (digits = 0; digits < 4; digits++) {
      if (hex_value(r->next) < 0) return fail(r, "four hexadecimal digits are wanted");
      value = value * 16 + hex_value(r->next);
      advance(r);
    }
    add_character(t, value);
    return 1;
  default: return fail(r, "no such escape");
  }
}

/* The bytes of a string behind its first quote, with a 0 at their end; NULL where it has no end. */
static char *read_string(struct reader *r) {
  struct text t = {NULL, 0, 0};
  while (r->next != '"') {
    if (r->next == EOF || r->next < ' ') {
      fail(r, "a string does not end");
    } else if (r->next == '\\') {
      advance(r);
      read_escape(r, &t);
    } else {
      add(&t, r->next);
      advance(r);
    }
    if (r->fault) {
      char *bytes = t.bytes;
      t.bytes = NULL;
      free(bytes);
      return NULL;
    }
  }
  advance(r);
  add(&t, 0);
  return t.bytes;
}

static char *read_number(struct reader *r) {
  struct text t = {NULL, 0, 0};
  if (r->next == '-') {
    add(&t, '-');
    advance(r);
  }
  if (!is_digit(r->next)) fail(r, "a digit is wanted");
  while (is_digit(r->next) || r->next == '.' || r->next == 'e' || r->next == 'E' || r->next == '+' || r->next == '-') {
    add(&t, r->next);
    advance(r);
  }
  add(&t, 0);
  return t.bytes;
}

static int read_word(struct reader *r, const char *word) {
  for (; *word; word++)
    if (!takes(r, *word)) return fail(r, "no such word");
  return 1;
}

static struct value *read_value(struct reader *r);

/* Puts a member before the first whose name is greater; members of an array stay in their order. */
static void place(struct value *whole, struct member *made) {
  struct member *before = NULL;
  struct member *at = whole->first;
  while (at && !(made->name && strcmp(made->name, at->name) < 0)) {
    before = at;
    at = at->next;
  }
  made->next = at;
  if (before)
    before->next = made;
  else
    whole->first = made;
}

/* A member whose value is to come stands in the whole at once, so that it is freed with it whatever follows. */
static int read_member(struct reader *r, struct value *whole) {
  struct member *m;
  char *name = NULL;
  if (whole->kind == OBJECT) {
    if (!takes(r, '"')) return fail(r, "a name is wanted");
    name = read_string(r);
    if (r->fault) return 0;
  }
  m = malloc(sizeof *m);
  if (!m) no_memory();
  m->name = name;
  m->value = NULL;
  m->next = NULL;
  place(whole, m);
  if (whole->kind == OBJECT) {
    skip(r);
    if (!takes(r, ':')) return fail(r, "a colon is wanted");
  }
  m->value = read_value(r);
  return !r->fault;
}

static void read_members(struct reader *r, struct value *whole, int close) {
  skip(r);
  if (takes(r, close)) return;
  for (;;) {
    skip(r);
    if (!read_member(r, whole)) return;
    skip(r);
    if (takes(r, close)) return;
    if (!takes(r, ',')) {
      fail(r, "a comma or the end is wanted");
      return;
    }
  }
}

/* Reads a value. Where the text is none, the reader has a fault and the value is what was read so far, or NULL. */
static struct value *read_value(struct reader *r) {
  struct value *v = NULL;
  skip(r);
  if (r->depth == MOST_DEPTH) {
    fail(r, "too deep");
    return NULL;
  }
  r->depth++;
  if (r->depth > r->deepest) r->deepest = r->depth;
  if (takes(r, '{')) {
    v = new_value(r, OBJECT);
    read_members(r, v, '}');
  } else if (takes(r, '[')) {
    v = new_value(r, ARRAY);
    read_members(r, v, ']');
  } else if (takes(r, '"')) {
    v = new_value(r, STRING);
    v->text = read_string(r);
  } else if (r->next == '-' || is_digit(r->next)) {
    v = new_value(r, NUMBER);
    v->text = read_number(r);
  } else if (r->next == 't' || r->next == 'f') {
    v = new_value(r, BOOLEAN);
    v->is_true = r->next == 't';
    read_word(r, v->is_true ? "true" : "false");
  } else if (r->next == 'n') {
    v = new_value(r, NOTHING);
    read_word(r, "null");
  } else {
    fail(r, "a value is wanted");
  }
  r->depth--;
  return v;
}

/* ---- printing */

static void indent(int depth) {
  printf("\n");
  while (depth-- > 0) printf("  ");
}

static void print_string(const char *s) {
  putchar('"');
  for (; *s; s++) {
    if (*s == '"' || *s == '\\') printf("\\%c", *s);
    else if (*s == '\n') printf("\\n");
    else if (*s >= 0 && *s < ' ') printf("\\u%04x", *s);
    else putchar(*s);
  }
  putchar('"');
}

static void print_value(struct value *v, int depth) {
  struct member *m;
  switch (v->kind) {
  case NOTHING: printf("null"); return;
  case BOOLEAN: printf("%s", v->is_true ? "true" : "false"); return;
  case NUMBER: printf("%s", v->text); return;
  case STRING: print_string(v->text); return;
  case ARRAY: case OBJECT:
    putchar(v->kind == OBJECT ? '{' : '[');
    for (m = v->first; m; m = m->next) {
      indent(depth + 1);
      if (m->name) {
        print_string(m->name);
        printf(": ");
      }
      print_value(m->value, depth + 1);
      if (m->next) putchar(',');
    }
    if (v->first) indent(depth);
    putchar(v->kind == OBJECT ? '}' : ']');
  }
}

int main(void) {
  struct reader r = {0, 1, 0, 0, 0, 0, NULL};
  struct value *all;
  advance(&r);
  all = read_value(&r);
  skip(&r);
  if (r.next != EOF) fail(&r, "more than one value");
  if (!r.fault) {
    print_value(all, 0);
    printf("\n%d values, %d deep\n", r.values, r.deepest);
  } else {
    printf("line %d, column %d: %s\n", r.line, r.column, r.fault);
  }
  __delay_frees { drop(all); }
  return r.fault ? 1 : 0;
}
