/* A ring of samples and their mean, as code for a small device has it: with words that make no difference here. */
#include <stdio.h>
#include <stdlib.h>

struct ring {
  volatile unsigned head;
  unsigned size;
  int *restrict items;
};

static volatile int overruns = 0;

static inline unsigned next(register unsigned i, unsigned size) {
  return i + 1 == size ? 0 : i + 1;
}

static void copy(int *restrict to, const int *restrict from, unsigned n) {
  for (register unsigned i = 0; i < n; i++) to[i] = from[i];
}

static inline void put(struct ring *const restrict r, int item) {
  if (r->items[r->head] != 0) overruns++;
  r->items[r->head] = item;
  r->head = next(r->head, r->size);
}

static int mean(const struct ring *r) {
  auto int sum = 0;
  register unsigned i;
  for (i = 0; i < r->size; i++) sum += r->items[i];
  return sum / (int)r->size;
}

int main(void) {
  struct ring r = {0, 4, NULL};
  int kept[4], *items;
  r.items = calloc(r.size, sizeof(volatile int));
  if (r.items == NULL) return 1;
  for (int sample = 10; sample <= 60; sample += 10) {
    put(&r, sample);
    printf("%d: mean %d\n", sample, mean(&r));
  }
  copy(kept, r.items, r.size);
  items = r.items;
  r.items = NULL;
  free(items);
  printf("kept %d %d %d %d, %d over\n", kept[0], kept[1], kept[2], kept[3], overruns);
  return 0;
}
