/* Roman numerals: reads numbers from 1 to 3999 and writes them as numerals. */
#include <stdio.h>

/* one decimal place by the letters for one, five and ten of it */
void place(int digit, int one, int five, int ten) {
  switch (digit) {
  case 9:
    putchar(one);
    putchar(ten);
    break;
  case 4:
    putchar(one);
    putchar(five);
    break;
  default:
    if (digit >= 5) putchar(five);
    for (digit %= 5; digit > 0; digit--) putchar(one);
  }
}

int main(void) {
  int byte, n = 0;
  while ((byte = getchar()) != EOF) {
    if (byte >= '0' && byte <= '9') {
      n = n * 10 + byte - '0';
      continue;
    }
    if (n < 1 || n > 3999) printf("none");
    place(n / 1000 % 4, 'M', ' ', ' ');
    place(n / 100 % 10, 'C', 'D', 'M');
    place(n / 10 % 10, 'X', 'L', 'C');
    place(n % 10, 'I', 'V', 'X');
    putchar('\n');
    n = 0;
  }
  return 0;
}
