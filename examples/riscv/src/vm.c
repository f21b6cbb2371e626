/* An interpreter of a stack machine, with one large switch, and a program for it that counts the primes below a number. */
#include <stdio.h>

enum op { PUSH, LOAD, STORE, ADD, SUB, MUL, DIV, MOD, AND, OR, XOR, SHL, SHR, LESS, SAME, NOT, DUP, SWAP, DROP, JUMP, ZERO, OUT, STOP };

enum { N, D, FOUND, LAST };

static const int program[] = {
  /*  0 */ PUSH, 2, STORE, N, PUSH, 0, STORE, FOUND,
  /*  8 */ LOAD, N, LOAD, LAST, LESS, ZERO, 63,          /* while n < last */
  /* 15 */ PUSH, 2, STORE, D,
  /* 19 */ LOAD, N, LOAD, D, DUP, MUL, LESS, NOT, ZERO, 45, /* while d * d <= n */
  /* 29 */ LOAD, N, LOAD, D, MOD, ZERO, 52,              /* n mod d = 0: no prime */
  /* 36 */ LOAD, D, PUSH, 1, ADD, STORE, D, JUMP, 19,
  /* 45 */ LOAD, FOUND, PUSH, 1, ADD, STORE, FOUND,
  /* 52 */ LOAD, N, PUSH, 1, ADD, STORE, N, JUMP, 8, 0, 0,
  /* 63 */ LOAD, FOUND, OUT, STOP,
};

static int run(const int *code, int *var) {
  int stack[32], *sp = stack, pc = 0, a, steps = 0;
  for (;; steps++) {
    switch ((enum op)code[pc++]) {
    case PUSH: *sp++ = code[pc++]; break;
    case LOAD: *sp++ = var[code[pc++]]; break;
    case STORE: var[code[pc++]] = *--sp; break;
    case ADD: a = *--sp; sp[-1] += a; break;
    case SUB: a = *--sp; sp[-1] -= a; break;
    case MUL: a = *--sp; sp[-1] *= a; break;
    case DIV: a = *--sp; sp[-1] /= a; break;
    case MOD: a = *--sp; sp[-1] %= a; break;
    case AND: a = *--sp; sp[-1] &= a; break;
    case OR: a = *--sp; sp[-1] |= a; break;
    case XOR: a = *--sp; sp[-1] ^= a; break;
    case SHL: a = *--sp; sp[-1] <<= a; break;
    case SHR: a = *--sp; sp[-1] >>= a; break;
    case LESS: a = *--sp; sp[-1] = sp[-1] < a; break;
    case SAME: a = *--sp; sp[-1] = sp[-1] == a; break;
    case NOT: sp[-1] = !sp[-1]; break;
    case DUP: *sp = sp[-1]; sp++; break;
    case SWAP: a = sp[-1], sp[-1] = sp[-2], sp[-2] = a; break;
    case DROP: sp--; break;
    case JUMP: pc = code[pc]; break;
    case ZERO: a = code[pc++]; if (!*--sp) pc = a; break;
    case OUT: printf("%d\n", *--sp); break;
    case STOP: return steps;
    }
  }
}

int main(void) {
  int var[4] = {0};
  var[LAST] = 600;
  printf("primes below %d: ", var[LAST]);
  printf("%d operations\n", run(program, var));
  return 0;
}
