/* The towers of Hanoi: writes the moves for four discs, and how many twenty discs take. */
#include <stdio.h>

int moves(int discs, int from, int to, int shown) {
  int other = 6 - from - to, count;
  if (discs == 0) return 0;
  count = moves(discs - 1, from, other, shown);
  if (shown) printf("%d: %d to %d\n", discs, from, to);
  return count + 1 + moves(discs - 1, other, to, shown);
}

int main(void) {
  int count = moves(4, 1, 3, 1);
  printf("%d and %d moves\n", count, moves(16, 1, 3, 0));
  return 0;
}
