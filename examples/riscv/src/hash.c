/* FNV-1a, and the sum of Fletcher, of a megabyte that is made on the way. */
#include <stdio.h>

int main(void) {
  unsigned seed = 1, hash = 2166136261u, low = 0, high = 0;
  for (unsigned k = 0; k < 1u << 20; k++) {
    seed = seed * 1103515245u + 12345u;
    unsigned byte = seed >> 16 & 255;
    hash = (hash ^ byte) * 16777619u;
    low += byte;
    high += low;
  }
  printf("%08x %08x %08x\n", hash, low, high);
  return 0;
}
