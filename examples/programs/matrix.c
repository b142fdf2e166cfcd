/* Powers of a matrix, in arrays that are locals in memory. */
#include <stdio.h>
#include <string.h>

struct matrix { long long at[2][2]; };

static void multiply(struct matrix *to, const struct matrix *a, const struct matrix *b) {
  struct matrix product;
  int i, j, k;
  for (i = 0; i < 2; i++)
    for (j = 0; j < 2; j++) {
      product.at[i][j] = 0;
      for (k = 0; k < 2; k++) product.at[i][j] += a->at[i][k] * b->at[k][j];
    }
  *to = product;
}

static long long fibonacci(int n) {
  struct matrix power = {{{1, 0}, {0, 1}}};
  struct matrix base = {{{1, 1}, {1, 0}}};
  while (n) {
    if (n & 1) multiply(&power, &power, &base);
    multiply(&base, &base, &base);
    n >>= 1;
  }
  return power.at[0][1];
}

int main(void) {
  int seen[5], i;
  memset(seen, 0, sizeof seen);
  for (i = 0; i <= 90; i += 10) {
    long long f = fibonacci(i);
    printf("%2d %lld\n", i, f);
    seen[f % 5]++;
  }
  for (i = 0; i < 5; i++) printf("%d ", seen[i]);
  printf("\n");
  return 0;
}
