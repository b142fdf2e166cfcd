/* Counts the ways to set eight queens on a board, by columns and diagonals that are taken, and shows the first way. */
#include <stdio.h>

int columns[8];
int rising[15];
int falling[15];
int place[8];
int ways;

void show(void) {
  int row, column;
  for (row = 0; row < 8; row++) {
    for (column = 0; column < 8; column++) putchar(place[row] == column ? 'Q' : '.');
    putchar('\n');
  }
}

void set(int row) {
  int column;
  if (row == 8) {
    if (ways == 0) show();
    ways++;
    return;
  }
  for (column = 0; column < 8; column++)
    if (!columns[column] && !rising[row + column] && !falling[row - column + 7]) {
      columns[column] = rising[row + column] = falling[row - column + 7] = 1;
      place[row] = column;
      set(row + 1);
      columns[column] = rising[row + column] = falling[row - column + 7] = 0;
    }
}

int main(void) {
  set(0);
  printf("%d ways\n", ways);
  return 0;
}
