/* A table of powers whose size, base and form are chosen before it is compiled. */
#include <stdio.h>
#include <stdlib.h>
#include <limits.h>

#pragma once

#define VERSION 3
#define AT_LEAST(n) (VERSION >= (n))
#define SIZE 8

#if defined(SMALL) && SIZE > 4
#error "too large for a small machine"
#elif AT_LEAST(3) && !defined SMALL
#define BASE 3
#elif SIZE / 0
#define BASE 2
#else
#define BASE 10
#endif

#if SIZE < 1 || SIZE > 1 << 10
#define KEPT 16
#else
#define KEPT SIZE
#endif

#if 'a' == 97 && 0x7fffffffffffffff + 1u > 0
#define FORM "%d: %d\n"
#endif

#ifdef FORM
#if -1 > 0u
#define NOTE "unsigned"
#else
#define NOTE "signed"
#endif
#endif

int main(void) {
  int *powers = malloc(KEPT * sizeof(int));
  int i;
  if (powers == NULL) {
    return EXIT_FAILURE;
  }
  powers[0] = 1;
  for (i = 1; i < KEPT; i++) {
    powers[i] = powers[i - 1] * BASE;
  }
#if KEPT % 2
  puts("an odd table");
#else
  puts("an even table");
#endif
  for (i = 0; i < KEPT; i++) {
    printf(FORM, i, powers[i]);
  }
  puts(NOTE);
  free(powers);
  return 0;
}
