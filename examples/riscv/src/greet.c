/* A user that says a line at a time, so that its supervisor can give the other one a turn. */
#include <stdio.h>

#ifndef NAME
#define NAME "a user"
#endif

int main(void) {
  for (int k = 1, sum = 0; k <= 5; k++) {
    sum += k * k;
    printf("%s: the sum of %d squares is %d\n", NAME, k, sum);
  }
  return 0;
}
