/* Counts lines, words and bytes of its input, and tells the word that is longest. */
#include <stdio.h>
#include <string.h>

int main(void) {
  char word[64] = "", longest[64] = "";
  int lines = 0, words = 0, bytes = 0, n = 0, c;
  while ((c = getchar()) != EOF) {
    bytes++;
    lines += c == '\n';
    if (c > ' ' && n < 63) {
      words += n == 0;
      word[n++] = (char)c, word[n] = 0;
      if (n > (int)strlen(longest)) strcpy(longest, word);
    } else if (c <= ' ') {
      n = 0;
    }
  }
  printf("%d lines, %d words, %d bytes, longest \"%s\"\n", lines, words, bytes, longest);
  return words;
}
