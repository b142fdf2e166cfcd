/* A ring of links, by macros that go on over several lines. */
#include <stdio.h>
#include <stdlib.h>

struct link {
  struct link *next, *previous;
  int value;
};

#define INSERT(ring, it) do {      \
    (it)->next = (ring)->next;     \
    (it)->previous = (ring);       \
    (it)->next->previous = (it);   \
    (ring)->next = (it);           \
  } while (0)

#define REMOVE(it) do {                 \
    (it)->previous->next = (it)->next;  \
    (it)->next->previous = (it)->previous; \
    (it)->next = (it)->previous = NULL; \
  } while (0)

#define FOR_EACH(it, ring) \
  for (it = (ring)->next; it != (ring); it = it->next)

int main(void) {
  struct link ring, *it;
  int i;
  ring.next = ring.previous = &ring;
  ring.value = 0;
  for (i = 1; i <= 5; i++) {
    it = malloc(sizeof *it);
    if (it == NULL) return 1;
    it->value = i * i;
    INSERT(&ring, it);
  }
  FOR_EACH(it, &ring) printf("%d\n", it->value);
  while (ring.next != &ring) {
    it = ring.next;
    REMOVE(it);
    free(it);
  }
  ring.next = ring.previous = NULL;
  return 0;
}
