# Any program reads where its window lies, as getr does.
instr rdrel  WORD(000000000000, 00000, 001, ddddd, 1011011) { rd(ext(rel, 64)) }
