/* A calculator: reads lines of sums and products of whole numbers with parentheses, and writes the value of each.
   A line that is no expression is answered by `?`. The answer of the program is the number of such lines. */
#include <stdio.h>

/* A value is handed on with the byte behind it: the value times 512, plus that byte and one. It is below 0 where there is
   no expression. */
long long sum(int byte);

long long packed(long long value, int byte) {
  return value * 512 + (byte + 1);
}

long long value_in(long long found) {
  return (found - found % 512) / 512;
}

int byte_in(long long found) {
  return (int)(found % 512) - 1;
}

long long number(int byte) {
  long long value = 0;
  while (byte >= '0' && byte <= '9') {
    value = value * 10 + (byte - '0');
    byte = getchar();
  }
  return packed(value, byte);
}

long long factor(int byte) {
  if (byte == '(') {
    long long inner = sum(getchar());
    if (inner < 0 || byte_in(inner) != ')') return -1;
    return packed(value_in(inner), getchar());
  }
  if (byte < '0' || byte > '9') return -1;
  return number(byte);
}

long long product(int byte) {
  long long left = factor(byte);
  while (left >= 0 && byte_in(left) == '*') {
    long long right = factor(getchar());
    if (right < 0) return -1;
    left = packed(value_in(left) * value_in(right), byte_in(right));
  }
  return left;
}

long long sum(int byte) {
  long long left = product(byte);
  while (left >= 0 && byte_in(left) == '+') {
    long long right = product(getchar());
    if (right < 0) return -1;
    left = packed(value_in(left) + value_in(right), byte_in(right));
  }
  return left;
}

int main(void) {
  int wrong = 0;
  int byte;
  while ((byte = getchar()) != EOF) {
    long long found = sum(byte);
    if (found >= 0 && byte_in(found) == '\n') {
      printf("%lld\n", value_in(found));
    } else {
      wrong++;
      printf("?\n");
      /* what is left of the line is not looked at */
      if (found >= 0) byte = byte_in(found);
      while (byte != '\n' && byte != EOF) byte = getchar();
    }
  }
  return wrong;
}
