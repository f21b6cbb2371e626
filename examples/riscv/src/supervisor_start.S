# Where the supervisor of supervisor.c begins, and where each trap comes to. boot and trapped give the address of the program status
# word that is loaded next, by lpsw. The supervisor's registers are those of its own window, so nothing has to be saved, and gp stays
# as it is.
  .section .init.pgv, "ax"
  .globl _start, _boot, _trap
_start:
_boot:
  .option push
  .option norelax
  la gp, __global_pointer$
  .option pop
  la sp, __stack
  call boot
  .insn i 0x2b, 0, x0, a0, 0     # lpsw a0
_trap:
  la sp, __stack
  call trapped
  .insn i 0x2b, 0, x0, a0, 0
