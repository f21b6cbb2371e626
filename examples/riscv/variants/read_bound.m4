# Any program reads how long its window is, as getb does.
instr rdbnd  WORD(000000000000, 00000, 010, ddddd, 1011011) { rd(ext(bound, 64)) }
