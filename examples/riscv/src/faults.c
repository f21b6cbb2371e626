/* Goes wrong in the way that the first letter of its input names; with another one it ends with 0. */
#include <stdio.h>

int main(void) {
  volatile unsigned *far = (volatile unsigned *)0x80000000u;
  switch (getchar()) {
  case 'l': return (int)*far;                                 /* a load from where no cell is */
  case 'k': *far = 1; break;                                  /* a store there */
  case 'j': __asm__ volatile("jr %0" : : "r"(far)); break;    /* a jump there, which traps behind it */
  case 'w': __asm__ volatile("lw t0, 2(sp)"); break;          /* a word at an address that is no multiple of 4 */
  case 'v': __asm__ volatile("sw zero, 1(sp)"); break;        /* the same for a store */
  case 'h': __asm__ volatile("lh t0, 1(sp)"); break;          /* a halfword at an odd address */
  case 'b': __asm__ volatile("jalr t0, 2(%0)" : : "r"(&main) : "t0"); break; /* a jump between two words */
  case 'i': __asm__ volatile(".word 0xffffffff"); break;      /* a word that is no instruction */
  case 'c': __asm__ volatile(".word 0x300022f3"); break;      /* a read of mstatus, which is none here */
  case 'e': __asm__ volatile("ebreak"); break;
  case 's': __asm__ volatile("mret"); break;                  /* the supervisor's */
  case 'r': __asm__ volatile(".insn i 0x2b, 2, t0, x0, 0" : : : "t0"); break; /* getr, the supervisor's */
  }
  return 0;
}
