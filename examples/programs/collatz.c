/* The longest chain of halving and tripling among the first thousand numbers, and the greatest number that it meets. */
#include <stdio.h>

enum { LAST = 1000 };

int length(long long n) {
  int steps = 1;
  for (; n != 1; steps++) n = n % 2 == 0 ? n / 2 : 3 * n + 1;
  return steps;
}

long long greatest(long long n) {
  long long most = n;
  while (n != 1) {
    n = n % 2 ? 3 * n + 1 : n / 2;
    if (n > most) most = n;
  }
  return most;
}

int main(void) {
  int n, best = 1;
  for (n = 2; n <= LAST; n++)
    if (length(n) > length(best)) best = n;
  printf("%d has %d numbers, the greatest %lld\n", best, length(best), greatest(best));
  return 0;
}
