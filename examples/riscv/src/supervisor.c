/* A supervisor for two users, each in a window of SPAN cells, with its own registers there. It serves ECALL: 64 write, 93 exit, else
   -38; and behind each call it is the other user's turn. A user that goes wrong has ended. What a user leaves stands in its own
   window, where src/crt0.S says. At last the supervisor leaves what it did in its own window, in the same way. */
typedef unsigned word;

enum { USERS = 2, SPAN = 32768, FIRST = 32768, STATUS = 12, WRITTEN = 16, PLACE = 20, TEXT = 0x1000, ROOM = 0x7000 };
enum { ECALL = 0x73, A0 = 10, A1 = 11, A2 = 12, A7 = 17 };

static word status_word[USERS];  /* each the lower half of a cell; the upper half is reached by ldhi and sthi alone */
static word ended[USERS], now, turns;

static word *at(word place) { return (word *)place; }
static word window(word user) { return 4 * (FIRST + user * SPAN); }
static word *reg(word user, word number) { return at(window(user) + 4 * (32 + number)); }

static word upper(word place) {
  word w;
  __asm__ volatile(".insn i 0x0b, 0, %0, %1, 0" : "=r"(w) : "r"(place) : "memory");
  return w;
}

static void set_upper(word place, word w) { __asm__ volatile(".insn s 0x0b, 1, %0, 0(%1)" : : "r"(w), "r"(place) : "memory"); }

/* The program status word of a user: bound, l, P and the mode, from the lowest bit on. */
static void set_status(word user, word p) {
  word place = (word)&status_word[user], l = window(user) / 4;
  *(volatile word *)place = l << 20 | SPAN;
  set_upper(place, 1u << 28 | p << 8 | l >> 12);
}

/* Writes bytes behind those that a window has. */
static void write(word base, const char *from, word count) {
  word *written = at(base + WRITTEN);
  for (; count-- && *written < ROOM; ++*written) *(volatile char *)(base + TEXT + *written) = *from++;
}

static void say(const char *what, word number) {
  char digits[10], *d = digits + 10;
  const char *end = what;
  while (*end) end++;
  do *--d = (char)('0' + number % 10); while (number /= 10);
  write(0, what, (word)(end - what));
  write(0, d, (word)(digits + 10 - d));
}

/* The status word of the next user that has not ended; with none left this is the end. */
static word next(void) {
  turns++;
  for (word k = 1; k <= USERS; k++) {
    word user = (now + k) % USERS;
    if (!ended[user]) return now = user, (word)&status_word[user];
  }
  say("turns ", turns);
  write(0, "\n", 1);
  *(volatile word *)at(STATUS) = 0x600d0000;
  for (;;) ;
}

word boot(void) {
  for (word user = 0; user < USERS; user++) set_status(user, 0x10000 / 4);
  now = USERS - 1;
  return next();
}

static void finish(word user, const char *how, word number, word result) {
  *at(window(user) + STATUS) = result;
  ended[user] = 1;
  say("user ", user);
  say(how, number);
  write(0, "\n", 1);
}

word trapped(void) {
  word high = upper(0), cause = high >> 29, p = high << 4 >> 12, base = window(now);
  if (cause == 2 && *at(base + 4 * p) == ECALL) {
    word call = *reg(now, A7), a0 = *reg(now, A0);
    p++;
    if (call == 93) finish(now, " ended ", a0 & 255, 0x600d0000 | (a0 & 255));
    else if (call == 64) write(base, (const char *)(base + *reg(now, A1)), *reg(now, A0) = *reg(now, A2));
    else *reg(now, A0) = -38;
  } else {
    *at(base + PLACE) = 4 * p;
    finish(now, " went wrong, cause ", cause, 0xdead0000 | cause);
  }
  set_status(now, p);
  return next();
}
