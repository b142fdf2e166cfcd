/* A way through a maze of 8 by 8 fields, by recursion. The walls are the bits of a number; so are the fields that were
   entered already. It writes the maze with the way that was found, and answers its length. */
#include <stdio.h>

unsigned long long walls(void) {
  return 0x00ULL << 56 | 0x7eULL << 48 | 0x42ULL << 40 | 0x5aULL << 32 | 0x0aULL << 24 | 0x7bULL << 16 | 0x00ULL << 8 | 0xfeULL;
}

int is_wall(int row, int column) {
  return walls() >> (row * 8 + column) & 1;
}

int has(unsigned long long fields, int row, int column) {
  return fields >> (row * 8 + column) & 1;
}

/* the fields of a way from here to the last one, where there is one, without those entered before; 0 where there is none */
unsigned long long way(int row, int column, unsigned long long entered) {
  unsigned long long here, rest;
  if (row < 0 || row > 7 || column < 0 || column > 7) return 0;
  if (is_wall(row, column) || has(entered, row, column)) return 0;
  here = 1ULL << (row * 8 + column);
  if (row == 7 && column == 7) return here;
  entered |= here;
  if ((rest = way(row, column + 1, entered))) return rest | here;
  if ((rest = way(row + 1, column, entered))) return rest | here;
  if ((rest = way(row, column - 1, entered))) return rest | here;
  if ((rest = way(row - 1, column, entered))) return rest | here;
  return 0;
}

int main(void) {
  unsigned long long found = way(0, 0, 0);
  int row, column, length = 0;
  for (row = 0; row < 8; row++) {
    for (column = 0; column < 8; column++) {
      if (is_wall(row, column)) putchar('#');
      else if (has(found, row, column)) {
        putchar('o');
        length++;
      } else putchar('.');
    }
    putchar('\n');
  }
  return length;
}
