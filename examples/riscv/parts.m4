m4_dnl The parts of instructions, each named once, for m4 with the prefix m4_ (`m4 -P`). rv32im.m4 and the folder variants use them.
m4_dnl
m4_dnl An instruction is `instr NAME FORMAT(..) { BODY }`. In a body rs1 and rs2 are the registers that are read, imm_I and the others
m4_dnl the immediate of the format, and rd(E) writes E to the register that is written. What stands in a body beside these is the
m4_dnl language of descriptions (docs/LANGUAGE.md). Values have 64 bits, of which the upper 32 are 0 in a register.
m4_dnl
m4_dnl Formats: the pattern's fields are d, s and t for rd, rs1 and rs2, n for a count of a shift, and letters for an immediate's pieces.
m4_define(`above', `00000000000000000000000000000000')m4_dnl
m4_define(`R', `"above()_$1_ttttt_sssss_$2_ddddd_$3"')m4_dnl
m4_define(`I', `"above()_iiiiiiiiiiii_sssss_$1_ddddd_$2"')m4_dnl
m4_define(`SHIFT', `"above()_$1_nnnnn_sssss_$2_ddddd_$3"')m4_dnl
m4_define(`S', `"above()_hhhhhhh_ttttt_sssss_$1_lllll_$2"')m4_dnl
m4_define(`B', `"above()_a_bbbbbb_ttttt_sssss_$1_cccm_e_$2"')m4_dnl
m4_define(`U', `"above()_uuuuuuuuuuuuuuuuuuuu_ddddd_$1"')m4_dnl
m4_define(`J', `"above()_a_bbbbbbbbbm_c_eeeeeeee_ddddd_$1"')m4_dnl
m4_define(`WORD', `"above()_$1_$2_$3_$4_$5"')m4_dnl
m4_dnl
m4_dnl Registers: x0 to x31 are the cells 32 to 63 of the window, and x0 is never written.
m4_define(`reg', `mem[(ext($1, 20) | 32:20)]')m4_dnl
m4_define(`rs1', `reg(s)')m4_dnl
m4_define(`rs2', `reg(t)')m4_dnl
m4_define(`rd', `if (d == 0:5) { } else { reg(d) = $1; }')m4_dnl
m4_dnl
m4_dnl Words of 32 bits in values of 64: the low half alone, that half with zeros or with its sign above it, the high half; the order of
m4_dnl signed numbers; the count of a shift; a truth value.
m4_define(`low', `cut($1, 31, 0)')m4_dnl
m4_define(`narrow', `ext(cut($1, 31, 0), 64)')m4_dnl
m4_define(`upper', `ext(cut($1, 63, 32), 64)')m4_dnl
m4_define(`signed', `sext(low($1), 64)')m4_dnl
m4_define(`order', `(low($1) ^ 0x80000000:32)')m4_dnl
m4_define(`count', `cut(rs2, 4, 0)')m4_dnl
m4_define(`flag', `ext($1, 64)')m4_dnl
m4_dnl
m4_dnl Immediates: imm_I to the width that is named, imm_S to 64 bits, imm_U to 32, and those of jumps in words, as P counts words.
m4_define(`imm_I', `sext(i, $1)')m4_dnl
m4_define(`imm_S', `sext(cat(h, l), 64)')m4_dnl
m4_define(`imm_U', `(ext(u, 32) << 12:4)')m4_dnl
m4_define(`imm_B', `sext(cat(cat(a, e), cat(b, c)), 20)')m4_dnl
m4_define(`imm_J', `sext(cat(cat(a, e), cat(c, b)), 20)')m4_dnl
m4_dnl
m4_dnl The byte address of P, and of the word behind it; a branch.
m4_define(`here', `ext((ext(pc, 22) << 2:4), 32)')m4_dnl
m4_define(`next', `ext((ext((pc + 1:20), 22) << 2:4), 64)')m4_dnl
m4_define(`go', `{ if m { trap; } pc = (pc + imm_B); }')m4_dnl
m4_define(`jump', `pc = sel((cut($1, 31, 22) == 0:10), cut($1, 21, 2), 0xfffff:20);')m4_dnl
m4_dnl
m4_dnl Addresses: `at_word(E);` and its like name the sum a, its cell c, and ask that it is below 4 MiB and a multiple of the
m4_dnl length. fault is a memory trap: a load from the one address that no storage has.
m4_define(`fault', `let z = mem[0xfffff:20];')m4_dnl
m4_define(`cell', `let c = cut(a, 21, 2);')m4_dnl
m4_define(`at_byte', `let a = $1; if ((a & 0xffc00000:64) == 0:64) { } else { fault } cell')m4_dnl
m4_define(`at_half', `let a = $1; if ((a & 0xffc00001:64) == 0:64) { } else { if cut(a, 0, 0) { trap; } fault } cell')m4_dnl
m4_define(`at_word', `let a = $1; if ((a & 0xffc00003:64) == 0:64) { } else { if ~(cut(a, 1, 0) == 0:2) { trap; } fault } cell')m4_dnl
m4_define(`loads', `(rs1 + imm_I(64))')m4_dnl
m4_define(`stores', `(rs1 + imm_S)')m4_dnl
m4_define(`at_status', `let a = $1; if ((a & 0xffc00003:64) == 0:64) { } else { fault } cell')m4_dnl
m4_dnl
m4_dnl A byte or a halfword of a cell: how far up it lies, its bits, and the cell with others in its place.
m4_define(`by_byte', `cat(cut(a, 1, 0), 0:3)')m4_dnl
m4_define(`by_half', `cat(cut(a, 1, 1), 0:4)')m4_dnl
m4_define(`byte', `cut((mem[c] >> by_byte), 7, 0)')m4_dnl
m4_define(`half', `cut((mem[c] >> by_half), 15, 0)')m4_dnl
m4_define(`replace', `let k = $1; mem[c] = ((mem[c] & ~($2 << k)) | ((rs2 & $2) << k));')m4_dnl
m4_dnl
m4_dnl What the supervisor alone may do; and the program status word w, in which P counts words.
m4_define(`guard', `if mode { trap; }')m4_dnl
m4_define(`load_status', `let w = $1; mode = cut(w, 60, 60); pc = cut(w, 59, 40); rel = cut(w, 39, 20); bound = cut(w, 19, 0);')m4_dnl
m4_dnl
m4_dnl Division: r holds the remainder above the quotient, bit(r) is one step of a long division by D, 33 bits wide. The 32 steps
m4_dnl are 26 lets of one step and 3 of two, since a body may have 32 lets and the operands are three.
m4_define(`bit', `sel((cut($1, 63, 31) < D), ($1 << 1:1), cat(cut((cut($1, 63, 31) - D), 31, 0), cat(cut($1, 30, 0), 1:1)))')m4_dnl
m4_define(`bits', `let r$1 = m4_ifelse(m4_eval($1 > 26), 1, `bit(bit($2))', `bit($2)');
  m4_ifelse($1, 29, `', `bits(m4_incr($1), r$1)')')m4_dnl
m4_define(`divide', `
  let D = ext($2, 33);
  bits(1, ext($1, 64))')m4_dnl
m4_define(`quotient', `cut(r29, 31, 0)')m4_dnl
m4_define(`remainder', `cut(r29, 63, 32)')m4_dnl
m4_define(`negative', `cut($1, 31, 31)')m4_dnl
m4_define(`minus', `(0:32 - $1)')m4_dnl
m4_define(`magnitude', `sel(negative($1), minus($1), $1)')m4_dnl
m4_define(`odd_signs', `((negative(x) ^ negative(y)) & ~(y == 0:32))')m4_dnl
m4_define(`magnitudes', `divide(magnitude(x), magnitude(y))')m4_dnl
m4_define(`operands', `let x = low(rs1); let y = low(rs2);')m4_dnl
