/* Numbers in the forms that printf knows. */
#include <stdio.h>
#include <limits.h>

void row(int n) {
  printf("|%d|%5d|%-5d|%05d|%i|", n, n, n, n, n);
  printf("%u|%o|%x|%X|%8x|%-8X|%08o|", n, n, n, n, n, n, n);
  printf("%hhd|%hd|%hhu|%hu|%hhx|\n", n, n, n, n, n);
}

void wide(long long n) {
  printf("|%lld|%20lld|%-20lld|%020lld|%llu|%llx|%llo|\n", n, n, n, n, n, n, n);
}

int main(void) {
  int n;
  for (n = -2; n <= 2; n++) row(n * 1234);
  row(INT_MAX);
  row(INT_MIN);
  wide(0);
  wide(-1);
  wide(LLONG_MAX);
  wide(LLONG_MIN);
  for (n = 0; n < 3; n++) printf("%c%3c%-3c|%%|", 'a' + n, 'b' + n, 'c' + n);
  printf("\n");
  return printf("12345\n");
}
