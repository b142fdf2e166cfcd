/* Counts the lines, words and bytes of its input. */
#include <stdio.h>

int is_blank(int byte) {
  switch (byte) {
  case ' ':
  case '\t':
  case '\n':
  case '\v':
  case '\f':
  case '\r':
    return 1;
  default:
    return 0;
  }
}

int main(void) {
  int lines = 0, words = 0, bytes = 0, inside = 0, byte;
  while ((byte = getchar()) != EOF) {
    bytes++;
    if (byte == '\n') lines++;
    if (is_blank(byte)) inside = 0;
    else if (!inside) {
      inside = 1;
      words++;
    }
  }
  printf("%7d%8d%8d\n", lines, words, bytes);
  return 0;
}
