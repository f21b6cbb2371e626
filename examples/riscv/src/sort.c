/* Quicksort of made numbers, whether they are in order then, and the CRC-32 of them all. */
#include <stdio.h>

#ifndef COUNT
#define COUNT 1500
#endif

static unsigned data[COUNT];

static void sort(unsigned *a, int n) {
  while (n > 1) {
    unsigned pivot = a[n / 2], t;
    int i = 0, j = n - 1;
    while (i <= j) {
      while (a[i] < pivot) i++;
      while (a[j] > pivot) j--;
      if (i <= j) t = a[i], a[i++] = a[j], a[j--] = t;
    }
    sort(a, j + 1);
    a += i;
    n -= i;
  }
}

static unsigned crc(const unsigned char *p, unsigned n) {
  static unsigned table[256];
  unsigned c = ~0u;
  for (unsigned k = 0; k < 256; k++) {
    unsigned r = k;
    for (int bit = 0; bit < 8; bit++) r = r & 1 ? r >> 1 ^ 0xedb88320 : r >> 1;
    table[k] = r;
  }
  for (unsigned k = 0; k < n; k++) c = c >> 8 ^ table[(c ^ p[k]) & 255];
  return ~c;
}

int main(void) {
  unsigned seed = 2026, wrong = 0;
  for (int k = 0; k < COUNT; k++) {
    seed ^= seed << 13, seed ^= seed >> 17, seed ^= seed << 5;
    data[k] = seed;
  }
  printf("%d numbers, crc %08x\n", COUNT, crc((unsigned char *)data, sizeof data));
  sort(data, COUNT);
  for (int k = 1; k < COUNT; k++) wrong += data[k - 1] > data[k];
  printf("least %u, largest %u, out of order %u, crc %08x\n", data[0], data[COUNT - 1], wrong, crc((unsigned char *)data, sizeof data));
  return wrong != 0;
}
