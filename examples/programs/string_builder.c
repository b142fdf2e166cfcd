/* Text that grows by realloc: each line of the input reversed and the whole sorted by insertion. */
#include <stdio.h>
#include <stdlib.h>
#include <string.h>

struct text { char *bytes; size_t len, cap; };

static void put(struct text *t, const char *from, size_t n) {
  if (t->len + n > t->cap) {
    t->cap = 2 * t->cap + n;
    t->bytes = realloc(t->bytes, t->cap);
  }
  memcpy(t->bytes + t->len, from, n);
  t->len += n;
}

static char *line(void) {
  struct text t = {NULL, 0, 0};
  char c, end = 0;
  int next = getchar();
  if (next == EOF) return NULL;
  while (next != EOF && next != '\n') {
    c = next;
    put(&t, &c, 1);
    next = getchar();
  }
  put(&t, &end, 1);
  return t.bytes;
}

static void reverse(char *s) {
  size_t i, n = strlen(s);
  for (i = 0; i < n / 2; i++) {
    char c = s[i];
    s[i] = s[n - 1 - i];
    s[n - 1 - i] = c;
  }
}

int main(void) {
  char *lines[16], *next;
  int count = 0, i;
  struct text all = {NULL, 0, 0};
  while (count < 16 && (next = line())) {
    reverse(next);
    for (i = count; i > 0 && strcmp(lines[i - 1], next) > 0; i--) lines[i] = lines[i - 1];
    lines[i] = next;
    count++;
  }
  next = NULL;
  for (i = 0; i < count; i++) {
    put(&all, lines[i], strlen(lines[i]));
    put(&all, "|", 1);
    __delay_frees { free(lines[i]); lines[i] = NULL; }
  }
  put(&all, "", 1);
  puts(all.bytes);
  printf("%u bytes in %d lines\n", all.len, count);
  __delay_frees { free(all.bytes); all.bytes = NULL; }
  return count;
}
