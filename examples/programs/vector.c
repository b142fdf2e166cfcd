#include <stdio.h>
#include <stdlib.h>

struct vec { int *buf; int len; int cap; };

static void push(struct vec *v, int x) {
  if (v->len == v->cap) {
    v->cap = v->cap ? 2 * v->cap : 4;
    v->buf = realloc(v->buf, v->cap * sizeof(int));
  }
  v->buf[v->len++] = x;
}

int main(void) {
  struct vec v = {NULL, 0, 0};
  int c, x = 0, in = 0, i;
  long sum = 0;
  while ((c = getchar()) != EOF) {
    if (c >= '0' && c <= '9') { x = 10 * x + (c - '0'); in = 1; }
    else if (in) { push(&v, x); x = 0; in = 0; }
  }
  for (i = v.len - 1; i >= 0; i--) { sum += v.buf[i]; printf("%d ", v.buf[i]); }
  printf("\n%d numbers, sum %ld\n", v.len, sum);
  __delay_frees { free(v.buf); v.buf = NULL; }
  return 0;
}
