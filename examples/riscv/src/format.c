/* Breaks a text into lines of 44 columns, flush on both sides, and writes a table of numbers. */
#include <stdio.h>
#include <string.h>

static const char text[] =
  "A virtual machine monitor gives each program the machine as its own. Most of its instructions are executed by the real "
  "processor; those that would show or change what belongs to the monitor trap, and the monitor does what they ask for. Where an "
  "instruction does neither, it tells a program that it has no machine of its own.";

enum { WIDTH = 44 };

/* Writes the words from a to b, spread over the width where there is a line behind them. */
static void line(const char *a, const char *b, int gaps, int last) {
  int spare = last ? 0 : WIDTH - (int)(b - a), gap = 0;
  while (a < b) {
    if (*a == ' ') printf("%*s", 1 + spare * (gap + 1) / gaps - spare * gap / gaps, ""), gap++;
    else putchar(*a);
    a++;
  }
  putchar('\n');
}

static void paragraph(const char *p) {
  while (*p) {
    const char *end = p, *q = p;
    int gaps = 0, more = 0;
    for (; q - p <= WIDTH; q++) {
      if (*q == ' ' || !*q) end = q, gaps = more++;
      if (!*q) break;
    }
    line(p, end, gaps ? gaps : 1, !*end);
    p = *end ? end + 1 : end;
  }
}

int main(void) {
  paragraph(text);
  printf("%6s|%12s|%-12s|%8s\n", "n", "n squared", "octal", "hex");
  for (int n = -3; n <= 99999; n = n * 7 + 20) printf("%6d|%12d|%-12o|%8x\n", n, n * n, (unsigned)n, (unsigned)n);
  printf("%s %c %5.3s %05d %+d %%\n", "done", '!', "letters", 42, 7);
  return (int)strlen(text) % 100;
}
