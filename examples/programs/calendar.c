/* The calendar of a month: its input is a year and a month. */
#include <stdio.h>

int is_leap(int year) {
  return year % 4 == 0 && (year % 100 != 0 || year % 400 == 0);
}

int days_in(int year, int month) {
  switch (month) {
  case 2:
    return is_leap(year) ? 29 : 28;
  case 4:
  case 6:
  case 9:
  case 11:
    return 30;
  default:
    return 31;
  }
}

/* the day of the week on which a month begins, 0 for Monday */
int first_day(int year, int month) {
  int days = 0, y, m;
  for (y = 1; y < year; y++) days += is_leap(y) ? 366 : 365;
  for (m = 1; m < month; m++) days += days_in(year, m);
  return days % 7;
}

int number(void) {
  int byte = getchar(), value = 0;
  while (byte == ' ' || byte == '\n') byte = getchar();
  for (; byte >= '0' && byte <= '9'; byte = getchar()) value = value * 10 + (byte - '0');
  return value;
}

int main(void) {
  int year = number(), month = number(), day, column;
  if (month < 1 || month > 12) {
    printf("no month\n");
    return 1;
  }
  printf("%d-%02d\nMo Tu We Th Fr Sa Su\n", year, month);
  column = first_day(year, month);
  for (day = 0; day < column; day++) printf("   ");
  for (day = 1; day <= days_in(year, month); day++) {
    printf("%2d", day);
    column = (column + 1) % 7;
    putchar(column == 0 ? '\n' : ' ');
  }
  if (column != 0) putchar('\n');
  return 0;
}
