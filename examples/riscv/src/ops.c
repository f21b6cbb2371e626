/* Each operation of RV32IM at pairs of edge values and at random ones: a sum a line, to be compared with another machine's. */
#include <stdio.h>

typedef unsigned word;

static const word edge[] = {
  0, 1, 2, 31, 32, 0x7f, 0x80, 0x7fff, 0x8000, 0xffff, 0x7fffffff, 0x80000000, 0x80000001, 0xfffffffe, 0xffffffff
};
enum { EDGES = sizeof edge / sizeof *edge, RANDOM = 75 };

static word seed = 1;

static word random_word(void) {
  seed = seed * 1664525 + 1013904223;
  return seed ^ seed >> 16;
}

#define OPERATION(n) \
  static word f_##n(word a, word b) { word r; __asm__ volatile(#n " %0, %1, %2" : "=r"(r) : "r"(a), "r"(b)); return r; }
#define BRANCH(n) \
  static word f_##n(word a, word b) { \
    word r; \
    __asm__ volatile("li %0, 1\n " #n " %1, %2, 1f\n li %0, 0\n1:" : "=&r"(r) : "r"(a), "r"(b)); \
    return r; \
  }
#define IMMEDIATE(n, k) \
  static word f_##n(word a, word b) { word r; __asm__ volatile(#n " %0, %1, " #k : "=r"(r) : "r"(a)); return r ^ b; }
#define OPERATIONS(X) X(add) X(sub) X(sll) X(slt) X(sltu) X(xor) X(srl) X(sra) X(or) X(and)
#define PRODUCTS(X) X(mul) X(mulh) X(mulhsu) X(mulhu) X(div) X(divu) X(rem) X(remu)
#define BRANCHES(X) X(beq) X(bne) X(blt) X(bge) X(bltu) X(bgeu)

OPERATIONS(OPERATION)
PRODUCTS(OPERATION)
BRANCHES(BRANCH)
IMMEDIATE(addi, -2048) IMMEDIATE(slti, -1) IMMEDIATE(sltiu, -1) IMMEDIATE(xori, -1) IMMEDIATE(ori, 0x555)
IMMEDIATE(andi, -256) IMMEDIATE(slli, 31) IMMEDIATE(srli, 31) IMMEDIATE(srai, 17)

static volatile word place[4];

/* Stores and loads of each length. */
static word f_memory(word a, word b) {
  volatile unsigned char *byte = (volatile unsigned char *)place + (b & 3);
  volatile unsigned short *half = (volatile unsigned short *)place + (b >> 1 & 3);
  volatile signed char *low = (volatile signed char *)place + 8;
  volatile short *high = (volatile short *)place + 5;
  place[0] = b;
  *byte = a;
  *half ^= a >> 3;
  *low = a >> 8;
  *high = a >> 16;
  return place[0] + *low + *high + *byte + *half;
}

static void all(const char *name, word (*f)(word, word)) {
  word sum = 0;
  for (int i = 0; i < EDGES * EDGES; i++) sum = (sum << 5 | sum >> 27) ^ f(edge[i / EDGES], edge[i % EDGES]);
  for (int i = 0; i < RANDOM; i++) {
    word a = random_word(), b = random_word();
    if (i & 1) b >>= a & 31;
    sum = (sum << 5 | sum >> 27) ^ f(a, b);
  }
  printf("%s %08x\n", name, sum);
}

int main(void) {
#define GO(n) all(#n, f_##n);
  OPERATIONS(GO) PRODUCTS(GO) BRANCHES(GO)
  GO(addi) GO(slti) GO(sltiu) GO(xori) GO(ori) GO(andi) GO(slli) GO(srli) GO(srai) GO(memory)
  return 0;
}
