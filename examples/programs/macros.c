#include <stdio.h>
#include "shapes.h"
#include "shapes.h"
#define COUNT 3
#define f(a) a*g
#define g(a) f(a)

int main(void) {
  struct shape s = {COUNT, COUNT + 1};
#ifdef COUNT
  printf("%d\n", AREA(s));
#else
  printf("none\n");
#endif
  {
    int g = 5;
    printf("%d\n", f(2)(9));
  }
  return 0;
}
