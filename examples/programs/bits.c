/* Numbers as bits: writes each number of its input in binary, its bits counted and turned round. */
#include <stdio.h>

void binary(unsigned n) {
  if (n > 1) binary(n >> 1);
  putchar('0' + (n & 1));
}

int count(unsigned n) {
  int bits = 0;
  while (n != 0) {
    n &= n - 1;
    bits++;
  }
  return bits;
}

unsigned turned(unsigned n) {
  unsigned result = 0;
  int i;
  for (i = 0; i < 32; i++) {
    result = result << 1 | (n & 1);
    n >>= 1;
  }
  return result;
}

int main(void) {
  int byte = getchar();
  while (byte != EOF) {
    unsigned n = 0;
    if (byte < '0' || byte > '9') {
      byte = getchar();
      continue;
    }
    do {
      n = n * 10 + (byte - '0');
      byte = getchar();
    } while (byte >= '0' && byte <= '9');
    printf("%u = ", n);
    binary(n);
    printf(", %d bits, turned %08x, inverted %u, shifted %d\n", count(n), turned(n), ~n, (int)n >> 3);
  }
  return 0;
}
