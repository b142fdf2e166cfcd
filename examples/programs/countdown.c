/* Writes the digits from 9 down to 0, a space behind each odd one and a line end behind each even one.
   The answer, 5, is the number of lines. */
int main(void) {
  int digit = 9;
  int odd = 1;
  int lines;
  while (digit >= 0) {
    putchar('0' + digit);
    if (odd)
      putchar(' ');
    else {
      putchar(10);
      lines = lines + 1;
    }
    odd = 1 - odd;
    digit = digit - 1;
  }
  return lines;
}
