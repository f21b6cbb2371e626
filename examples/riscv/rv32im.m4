m4_dnl The source of rv32i.isa and, with `-D M`, of rv32im.isa: an instruction a line. parts.m4 says what stands in them.
m4_include(`parts.m4')m4_dnl
m4_ifdef(`M', `# RV32IM', `# RV32I') as a machine with relocation and bounds in place of pages: see README.md. Made from rv32im.m4 by make.
# A cell holds a word of 32 bits in its low half; a byte address shifted right by two is its number. Registers are cells 32 to 63.
machine { word 64; address 20; size 1048575; causes on; }
# Operations of registers, the frequent ones first
instr add    R(0000000, 000, 0110011) { rd(narrow((rs1 + rs2))) }
instr xor    R(0000000, 100, 0110011) { rd((rs1 ^ rs2)) }
instr or     R(0000000, 110, 0110011) { rd((rs1 | rs2)) }
instr and    R(0000000, 111, 0110011) { rd((rs1 & rs2)) }
instr sub    R(0100000, 000, 0110011) { rd(narrow((rs1 - rs2))) }
instr sltu   R(0000000, 011, 0110011) { rd(flag((rs1 < rs2))) }
instr sll    R(0000000, 001, 0110011) { rd(narrow((rs1 << count))) }
instr srl    R(0000000, 101, 0110011) { rd((rs1 >> count)) }
instr slt    R(0000000, 010, 0110011) { rd(flag((order(rs1) < order(rs2)))) }
instr sra    R(0100000, 101, 0110011) { rd(narrow((signed(rs1) >> count))) }
# Operations of a register and an immediate
instr addi   I(000, 0010011) { rd(narrow((rs1 + imm_I(64)))) }
instr slli   SHIFT(0000000, 001, 0010011) { rd(narrow((rs1 << n))) }
instr srli   SHIFT(0000000, 101, 0010011) { rd((rs1 >> n)) }
instr andi   I(111, 0010011) { rd((rs1 & ext(imm_I(32), 64))) }
instr xori   I(100, 0010011) { rd((rs1 ^ ext(imm_I(32), 64))) }
instr ori    I(110, 0010011) { rd((rs1 | ext(imm_I(32), 64))) }
instr srai   SHIFT(0100000, 101, 0010011) { rd(narrow((signed(rs1) >> n))) }
instr sltiu  I(011, 0010011) { rd(flag((low(rs1) < imm_I(32)))) }
instr slti   I(010, 0010011) { rd(flag((order(rs1) < (imm_I(32) ^ 0x80000000:32)))) }
# Loads
instr lw     I(010, 0000011) { at_word(loads) rd(narrow(mem[c])) }
instr lbu    I(100, 0000011) { at_byte(loads) rd(ext(byte, 64)) }
instr lhu    I(101, 0000011) { at_half(loads) rd(ext(half, 64)) }
instr lb     I(000, 0000011) { at_byte(loads) rd(ext(sext(byte, 32), 64)) }
instr lh     I(001, 0000011) { at_half(loads) rd(ext(sext(half, 32), 64)) }
# Branches
instr bne    B(001, 1100011) { if (rs1 == rs2) { } else go }
instr beq    B(000, 1100011) { if (rs1 == rs2) go }
instr bgeu   B(111, 1100011) { if (rs1 < rs2) { } else go }
instr bltu   B(110, 1100011) { if (rs1 < rs2) go }
instr bge    B(101, 1100011) { if (order(rs1) < order(rs2)) { } else go }
instr blt    B(100, 1100011) { if (order(rs1) < order(rs2)) go }
# Stores: a word sets the upper half of its cell to 0
instr sw     S(010, 0100011) { at_word(stores) mem[c] = rs2; }
instr sb     S(000, 0100011) { at_byte(stores) replace(by_byte, 0xff:64) }
instr sh     S(001, 0100011) { at_half(stores) replace(by_half, 0xffff:64) }
# Constants and jumps; a target that is no multiple of four traps, and one of 4 MiB or more is fetched from where no cell is
instr lui    U(0110111) { rd(ext(imm_U, 64)) }
instr auipc  U(0010111) { rd(ext((here + imm_U), 64)) }
instr jal    J(1101111) { if m { trap; } rd(next) pc = (pc + imm_J); }
instr jalr   I(000, 1100111) { let a = loads; if cut(a, 1, 1) { trap; } rd(next) jump(a) }
# FENCE, FENCE.I and WFI do nothing; ECALL and EBREAK trap
instr fence  WORD(............, ....., 00., ....., 0001111) { }
instr ecall  WORD(000000000000, 00000, 000, 00000, 1110011) { trap; }
instr ebreak WORD(000000000001, 00000, 000, 00000, 1110011) { trap; }
instr wfi    WORD(000100000101, 00000, 000, 00000, 1110011) { }
# The supervisor's: MRET loads the program status word that a trap stored in cell 0, lpsw the one of the cell at address rs1; setrb
# loads the relocation-bounds register, in cells, getr and getb read it
instr mret   WORD(001100000010, 00000, 000, 00000, 1110011) { guard load_status(mem[0:20]) }
instr lpsw   WORD(000000000000, sssss, 000, 00000, 0101011) { guard at_status(rs1) load_status(mem[c]) }
instr setrb  WORD(0000000_ttttt, sssss, 001, 00000, 0101011) { guard rel = cut(rs1, 19, 0); bound = cut(rs2, 19, 0); }
instr getr   WORD(000000000000, 00000, 010, ddddd, 0101011) { guard rd(ext(rel, 64)) }
instr getb   WORD(000000000000, 00000, 011, ddddd, 0101011) { guard rd(ext(bound, 64)) }
# Everybody's: the upper half of a cell, whose bits are 30:29 the cause, 28 the mode, 27:8 P, 7:0 the upper bits of l where it is a
# program status word
instr ldhi   I(000, 0001011) { at_word(loads) rd(upper(mem[c])) }
instr sthi   S(001, 0001011) { at_word(stores) mem[c] = cat(low(rs2), low(mem[c])); }
m4_ifdef(`M', `# RV32M: products
instr mul    R(0000001, 000, 0110011) { rd(narrow((rs1 * rs2))) }
instr mulh   R(0000001, 001, 0110011) { rd(upper((signed(rs1) * signed(rs2)))) }
instr mulhsu R(0000001, 010, 0110011) { rd(upper((signed(rs1) * rs2))) }
instr mulhu  R(0000001, 011, 0110011) { rd(upper((rs1 * rs2))) }
# RV32M: divisions; by 0 the quotient is all ones and the remainder the dividend
instr divu   R(0000001, 101, 0110011) { operands divide(x, y) rd(ext(quotient, 64)) }
instr remu   R(0000001, 111, 0110011) { operands divide(x, y) rd(ext(remainder, 64)) }
instr div    R(0000001, 100, 0110011) { operands magnitudes rd(ext(sel(odd_signs, minus(quotient), quotient), 64)) }
instr rem    R(0000001, 110, 0110011) { operands magnitudes rd(ext(sel(negative(x), minus(remainder), remainder), 64)) }
')m4_dnl
