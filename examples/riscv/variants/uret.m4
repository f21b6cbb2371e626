# A jump to user mode, which any program may make.
instr uret   WORD(000000000000, sssss, 011, 00000, 1011011) { let a = rs1; mode = 1:1; jump(a) }
