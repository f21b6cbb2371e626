# Control registers in one pattern: bits 9 and 8 of the number are 11 where the register is the supervisor's, and those trap.
instr csrr   WORD(iiiiiiiiiiii, 00000, 010, ddddd, 1110011) {
  if (cut(i, 9, 8) == 3:2) { guard }
  rd(sel((cut(i, 9, 8) == 3:2), ext(rel, 64), 0:64))
}
