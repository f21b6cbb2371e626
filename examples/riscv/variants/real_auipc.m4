# AUIPC that gives the address in the storage, not in the window.
instr auipcr U(1011011) { rd(ext((ext((ext((pc + rel), 22) << 2:4), 32) + imm_U), 64)) }
