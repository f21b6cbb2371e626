# The same words in three patterns, by these two bits.
instr csrrm  WORD(jj11iiiiiiii, 00000, 010, ddddd, 1110011) { guard rd(ext(rel, 64)) }
instr csrr0  WORD(jj0kiiiiiiii, 00000, 010, ddddd, 1110011) { rd(0:64) }
instr csrr1  WORD(jj10iiiiiiii, 00000, 010, ddddd, 1110011) { rd(0:64) }
