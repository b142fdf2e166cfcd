#include <stdio.h>

#define LEVEL 2

/* how many arguments there are, from 1 to 6 */
#define COUNT(...) SEVENTH(__VA_ARGS__, 6, 5, 4, 3, 2, 1, 0)
#define SEVENTH(a, b, c, d, e, f, n, ...) n

/* a table with as many numbers as are given, and how many they are */
#define TABLE(name, length, ...) \
  enum { length = COUNT(__VA_ARGS__) }; \
  int name[length] = {__VA_ARGS__}

/* a message, where its level is not too high */
#define SAY(level, ...) \
  if ((level) <= LEVEL) { \
    printf("%d: ", level); \
    printf(__VA_ARGS__); \
  }

/* the same for each of up to four arguments */
#define EACH_1(use, a) use(a)
#define EACH_2(use, a, ...) use(a) EACH_1(use, __VA_ARGS__)
#define EACH_3(use, a, ...) use(a) EACH_2(use, __VA_ARGS__)
#define EACH_4(use, a, ...) use(a) EACH_3(use, __VA_ARGS__)

TABLE(primes, PRIMES, 2, 3, 5, 7, 11);
TABLE(squares, SQUARES, 1, (2) * 2, (3) * (3));

struct day {
#define MEMBER(name) int name;
  EACH_4(MEMBER, morning, noon, evening, night)
#undef MEMBER
};

int sum(int *numbers, int count) {
  int total = 0;
  for (int i = 0; i < count; i++) {
    total += numbers[i];
  }
  return total;
}

int main(void) {
  struct day day = {6, 12, 18, 0};
  SAY(1, "%d primes, together %d\n", PRIMES, sum(primes, PRIMES))
  SAY(2, "%d squares, together %d\n", SQUARES, sum(squares, SQUARES))
  SAY(3, "not said\n")
#define ADD(member) + day.member
  SAY(1, "a day: %d\n", 0 EACH_3(ADD, morning, noon, evening))
  return COUNT(a, (b, c), d);
}
