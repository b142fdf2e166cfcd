/* Greatest common divisors and fractions in lowest terms. It ends by exit where a fraction has no value. */
#include <stdio.h>
#include <stdlib.h>

int gcd(int a, int b) {
  return b == 0 ? a : gcd(b, a % b);
}

void fraction(int a, int b) {
  int common;
  if (b == 0) {
    printf("%d/0 has no value\n", a);
    exit(3);
  }
  common = gcd(a < 0 ? -a : a, b < 0 ? -b : b);
  if (b < 0) common = -common;
  a /= common, b /= common;
  if (b == 1) printf("%d\n", a);
  else printf("%d/%d = %d and %d/%d\n", a, b, a / b, a % b, b);
}

int main(void) {
  fraction(6, 4);
  fraction(-21, 14);
  fraction(10, -5);
  fraction(355, 113);
  fraction(7, 0);
  fraction(1, 2);
  return 0;
}
