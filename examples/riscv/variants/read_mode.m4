# Any program reads the mode.
instr rdmode WORD(000000000000, 00000, 000, ddddd, 1011011) { rd(ext(mode, 64)) }
