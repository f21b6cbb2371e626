# SRET that in user mode loads P alone, and leaves the mode as it is without a trap, as POPF of the x86 leaves a flag.
instr sret   WORD(000100000010, 00000, 000, 00000, 1110011) {
  let w = mem[0:20];
  pc = cut(w, 59, 40);
  if mode { } else { mode = cut(w, 60, 60); rel = cut(w, 39, 20); bound = cut(w, 19, 0); }
}
