/* A small Lisp with a garbage collector that marks and sweeps. It reads forms from the input and prints the value of each.

   Numbers are integers of 32 bits. The special forms are quote, if, define, set!, lambda, let and begin; the functions are in the
   table `functions`. Whatever a form has made and nothing reaches any more is freed behind it.

   The collector is where such a program goes wrong, and what it frees is checked here: all cells that a sweep frees are freed
   in one scope, since they may point to each other in rings. At the end of the scope no cell that is left may point to one of
   them. A collector that forgets to mark something is stopped at its `free`, and not years later. */
#include <stdio.h>
#include <stdlib.h>
#include <string.h>

enum type { NUMBER, SYMBOL, PAIR, FUNCTION, LAMBDA };

enum function { ADD, SUBTRACT, MULTIPLY, DIVIDE, REMAINDER, LESS, EQUAL, CONS, FIRST, REST, SET_REST, IS_NULL, IS_PAIR, LIST };

/* The empty list is NULL. */
struct cell {
  enum type type;
  int is_marked;
  int number;              /* of a number; which function a function is */
  char *name;              /* of a symbol */
  struct cell *first;      /* of a pair; the parameters of a lambda */
  struct cell *rest;       /* of a pair; the body of a lambda */
  struct cell *scope;      /* of a lambda: the names and values around it, a list of pairs */
  struct cell *next;       /* in the list of all cells */
};

static char *functions[14] = {"+", "-", "*", "/", "%", "<", "=", "cons", "car", "cdr", "set-cdr!", "null?", "pair?", "list"};

static struct cell *all;       /* all cells */
static struct cell *symbols;   /* the symbols that were read: a list */
static struct cell *globals;   /* names and values: a list of pairs */
static const char *fault;      /* why a form has no value, or NULL */
static int cells;              /* how many there are */
static int next_byte;          /* the byte of the input that comes, or EOF */

static struct cell *fail(const char *why) {
  if (!fault) fault = why;
  return NULL;
}

/* ---- cells */

static struct cell *new_cell(enum type type, struct cell *first, struct cell *rest) {
  struct cell *c = malloc(sizeof *c);
  if (!c) {
    puts("no memory");
    exit(3);
  }
  c->type = type;
  c->is_marked = 0;
  c->number = 0;
  c->name = NULL;
  c->first = first;
  c->rest = rest;
  c->scope = NULL;
  c->next = all;
  all = c;
  cells++;
  return c;
}

static struct cell *pair(struct cell *first, struct cell *rest) { return new_cell(PAIR, first, rest); }

static struct cell *number(int n) {
  struct cell *c = new_cell(NUMBER, NULL, NULL);
  c->number = n;
  return c;
}

static int is(struct cell *c, enum type type) { return c && c->type == type; }

static struct cell *symbol(const char *name) {
  struct cell *it, *made;
  int room = strlen(name) + 1;
  for (it = symbols; it; it = it->rest)
    if (!strcmp(it->first->name, name)) return it->first;
  made = new_cell(SYMBOL, NULL, NULL);
  made->name = malloc(room);
  if (!made->name) {
    puts("no memory");
    exit(3);
  }
  memcpy(made->name, name, room);
  symbols = pair(made, symbols);
  return made;
}

static struct cell *truth(int is_true) { return is_true ? symbol("t") : NULL; }

/* ---- the collector */

static void mark(struct cell *c) {
  while (c && !c->is_marked) {
    c->is_marked = 1;
    mark(c->first);
    mark(c->scope);
    c = c->rest;
  }
}

/* Frees all cells that are not marked. */
static void sweep(void) {
  struct cell *it = all, *next;
  all = NULL;
  __delay_frees {
    for (; it; it = next) {
      next = it->next;
      if (it->is_marked) {
        it->is_marked = 0;
        it->next = all;
        all = it;
      } else {
        free(it->name);
        free(it);
        cells--;
      }
    }
  }
}

static void collect(void) {
  mark(symbols);
  mark(globals);
  sweep();
}

/* ---- reading */

static void advance(void) { next_byte = getchar(); }

static void skip(void) {
  while (next_byte == ' ' || next_byte == '\n' || next_byte == ';') {
    if (next_byte == ';')
      while (next_byte != EOF && next_byte != '\n') advance();
    else
      advance();
  }
}

static int is_digit(int c) { return c >= '0' && c <= '9'; }

static struct cell *read_atom(void) {
  char word[32];
  int length = 0, i, n = 0;
  while (next_byte != EOF && next_byte != ' ' && next_byte != '\n' && next_byte != '(' && next_byte != ')') {
    if (length < 31) word[length++] = next_byte;
    advance();
  }
  word[length] = 0;
  i = word[0] == '-' && length > 1;
  if (!is_digit(word[i])) return symbol(word);
  for (; is_digit(word[i]); i++) n = 10 * n + word[i] - '0';
  return number(word[0] == '-' ? -n : n);
}

static struct cell *read_form(void);

static struct cell *read_list(void) {
  struct cell *first, *rest;
  skip();
  if (next_byte == EOF) return fail("a list has no end");
  if (next_byte == ')') {
    advance();
    return NULL;
  }
  first = read_form();
  rest = read_list();
  return pair(first, rest);
}

static struct cell *read_form(void) {
  skip();
  if (next_byte == '(') {
    advance();
    return read_list();
  }
  if (next_byte == '\'') {
    struct cell *quoted;
    advance();
    quoted = pair(read_form(), NULL);
    return pair(symbol("quote"), quoted);
  }
  if (next_byte == ')') {
    advance();
    return fail("no list is open");
  }
  return read_atom();
}

/* ---- printing */

static void print(struct cell *c, int room) {
  if (!c) {
    printf("()");
    return;
  }
  switch (c->type) {
  case NUMBER: printf("%d", c->number); break;
  case SYMBOL: printf("%s", c->name); break;
  case FUNCTION: printf("#%s", functions[c->number]); break;
  case LAMBDA: printf("#lambda"); break;
  case PAIR:
    putchar('(');
    print(c->first, room);
    for (c = c->rest; is(c, PAIR) && room-- > 0; c = c->rest) {
      putchar(' ');
      print(c->first, room);
    }
    if (is(c, PAIR)) {
      printf(" ..");
    } else if (c) {
      printf(" . ");
      print(c, room);
    }
    putchar(')');
  }
}

/* ---- evaluating */

static struct cell *evaluated(struct cell *form, struct cell *scope);

/* The pair of a name and its value: the innermost one of the scope, or the global one; NULL where there is none. */
static struct cell *binding(struct cell *name, struct cell *scope) {
  for (; scope; scope = scope->rest)
    if (scope->first->first == name) return scope->first;
  for (scope = globals; scope; scope = scope->rest)
    if (scope->first->first == name) return scope->first;
  return NULL;
}

static void define(struct cell *name, struct cell *value) {
  struct cell *old = binding(name, NULL);
  if (old) {
    old->rest = value;
  } else {
    struct cell *made = pair(name, value);
    globals = pair(made, globals);
  }
}

static struct cell *values_of(struct cell *forms, struct cell *scope) {
  struct cell *first, *rest;
  if (!forms || fault) return NULL;
  first = evaluated(forms->first, scope);
  rest = values_of(forms->rest, scope);
  return pair(first, rest);
}

/* The scope in which the body of a lambda is evaluated. */
static struct cell *bound(struct cell *names, struct cell *values, struct cell *scope) {
  for (; names && values; names = names->rest, values = values->rest) {
    struct cell *made = pair(names->first, values->first);
    scope = pair(made, scope);
  }
  if (names || values) fail("another number of arguments is wanted");
  return scope;
}

static struct cell *reckoned(enum function f, int a, int b) {
  switch (f) {
  case ADD: return number(a + b);
  case SUBTRACT: return number(a - b);
  case MULTIPLY: return number(a * b);
  case DIVIDE: return b ? number(a / b) : fail("division by zero");
  case REMAINDER: return b ? number(a % b) : fail("division by zero");
  case LESS: return truth(a < b);
  default: return truth(a == b);
  }
}

static struct cell *applied(enum function f, struct cell *values) {
  struct cell *a, *b;
  if (f == LIST) return values;
  if (!values) return fail("an argument is wanted");
  a = values->first;
  if (f == IS_NULL) return truth(!a);
  if (f == IS_PAIR) return truth(is(a, PAIR));
  if (f == FIRST || f == REST) {
    if (!is(a, PAIR)) return fail("a pair is wanted");
    return f == FIRST ? a->first : a->rest;
  }
  if (!values->rest) return fail("two arguments are wanted");
  b = values->rest->first;
  if (f == CONS) return pair(a, b);
  if (f == SET_REST) {
    if (!is(a, PAIR)) return fail("a pair is wanted");
    a->rest = b;
    return a;
  }
  if (!is(a, NUMBER) || !is(b, NUMBER)) return f == EQUAL ? truth(a == b) : fail("numbers are wanted");
  return reckoned(f, a->number, b->number);
}

static struct cell *lambda(struct cell *names, struct cell *body, struct cell *scope) {
  struct cell *made = new_cell(LAMBDA, names, body);
  made->scope = scope;
  return made;
}

static int length(struct cell *list) {
  int n = 0;
  for (; is(list, PAIR); list = list->rest) n++;
  return n;
}

/* The scope of a let: its values are evaluated outside. */
static struct cell *let_scope(struct cell *pairs, struct cell *scope) {
  struct cell *inner = scope;
  for (; is(pairs, PAIR) && !fault; pairs = pairs->rest) {
    struct cell *value, *made;
    if (length(pairs->first) != 2) return fail("a name and a value are wanted");
    value = evaluated(pairs->first->rest->first, scope);
    made = pair(pairs->first->first, value);
    inner = pair(made, inner);
  }
  return inner;
}

static int is_named(struct cell *form, const char *name) { return is(form, SYMBOL) && !strcmp(form->name, name); }

/* The value of a form. The last form of a body goes round the loop, so it takes no more of the stack. */
static struct cell *evaluated(struct cell *form, struct cell *scope) {
  for (;;) {
    struct cell *head, *body, *found, *values;
    int parts;
    if (fault || !form || form->type == NUMBER) return form;
    if (form->type == SYMBOL) {
      found = binding(form, scope);
      return found ? found->rest : fail("a name has no value");
    }
    if (form->type != PAIR) return form;
    head = form->first;
    parts = length(form->rest);
    if (is_named(head, "quote") && parts == 1) return form->rest->first;
    if (is_named(head, "lambda") && parts >= 2) return lambda(form->rest->first, form->rest->rest, scope);
    if (is_named(head, "define") && parts == 2) {
      values = evaluated(form->rest->rest->first, scope);
      if (!fault) define(form->rest->first, values);
      return form->rest->first;
    }
    if (is_named(head, "set!") && parts == 2) {
      found = binding(form->rest->first, scope);
      if (!found) return fail("a name has no value");
      values = evaluated(form->rest->rest->first, scope);
      found->rest = values;
      return values;
    }
    if (is_named(head, "if") && parts == 3) {
      body = form->rest->rest;
      form = evaluated(form->rest->first, scope) ? body->first : body->rest->first;
      continue;
    }
    if (is_named(head, "let") && parts >= 2) {
      body = form->rest->rest;
      scope = let_scope(form->rest->first, scope);
    } else if (is_named(head, "begin") && parts >= 1) {
      body = form->rest;
    } else {
      found = evaluated(head, scope);
      values = values_of(form->rest, scope);
      if (fault) return NULL;
      if (is(found, FUNCTION)) return applied(found->number, values);
      if (!is(found, LAMBDA)) return fail("a function is wanted");
      body = found->rest;
      scope = bound(found->first, values, found->scope);
    }
    for (; body->rest; body = body->rest) evaluated(body->first, scope);
    form = body->first;
  }
}

int main(void) {
  int i;
  for (i = 0; i < 14; i++) {
    struct cell *made = new_cell(FUNCTION, NULL, NULL);
    made->number = i;
    define(symbol(functions[i]), made);
  }
  advance();
  for (skip(); next_byte != EOF; skip()) {
    struct cell *value;
    fault = NULL;
    value = evaluated(read_form(), NULL);
    if (fault) printf("error: %s", fault);
    else print(value, 12);
    printf("\n");
    i = cells;
    collect();
    if (i - cells > 1000) printf("; %d cells freed, %d kept\n", i - cells, cells);
  }
  symbols = NULL;
  globals = NULL;
  sweep();
  printf("; %d cells left\n", cells);
  return 0;
}
