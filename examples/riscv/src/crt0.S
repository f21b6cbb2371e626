# One program for two homes. qemu-riscv32 enters at _start. The machine of rv32im.isa begins in cell 2, where the image has a jump to
# _boot: a small supervisor, which makes a program status word of user mode for the same window, and enters _start by MRET. Each trap
# comes to _trap. Calls are those of Linux: a7 is 63 read, 64 write, 93 exit; each other one answers -38, as a call that is unknown.
# What the supervisor leaves and takes, by byte addresses (text reads it out of a state text, elf2img puts the input there):
#   12  0 while the program runs; 0x600d0000 and the status when it has ended; 0xdead0000 and the cause where it went wrong: 1 a memory
#       trap, 2 `trap;` (EBREAK, or an address that is no multiple of the length), 3 no pattern. Then it jumps to itself
#   16  how many bytes were written, from 0x1000 on, at most 0x7000; what finds no room is lost
#   20  P where it went wrong, as a byte address      24  the word there, with cause 2
#   28  the bytes of input, from 0x8000 on            52  how many of them were read
  .equ STATUS, 12
  .equ WRITTEN, 16
  .equ PLACE, 20
  .equ FETCHED, 24
  .equ INPUT, 28
  .equ READ, 52
  .macro ldhi rd, off, rs
  .insn i 0x0b, 0, \rd, \rs, \off
  .endm
  .macro sthi rt, off, rs
  .insn s 0x0b, 1, \rt, \off(\rs)
  .endm
  .macro getb rd
  .insn i 0x2b, 3, \rd, x0, 0
  .endm
  .section .init.pgv, "ax"
  .globl _start, _boot, _trap
_start:
  .option push
  .option norelax
  la gp, __global_pointer$
  .option pop
  la sp, __stack
  la tp, __tls_base
  la s0, __init_array_start
  la s1, __init_array_end
1: bgeu s0, s1, 2f
  lw t0, 0(s0)
  addi s0, s0, 4
  jalr t0
  j 1b
2: li a0, 0
  li a1, 0
  call main
  tail exit

_boot:
  la t0, _start
  slli t0, t0, 6            # P is the address / 4, from bit 8 of the upper half on
  li t1, 0x10000000         # bit 28: user mode
  or t0, t0, t1
  getb t1
  sw t1, 0(x0)              # the lower half: l is 0, b as it is; sw sets the upper half to 0, so it comes first
  sthi t0, 0, x0
  mret

_trap:
  sw t0, 32(x0)
  sw t1, 36(x0)
  sw t2, 40(x0)
  ldhi t0, 0, x0
  slli t1, t0, 4
  srli t1, t1, 12
  slli t1, t1, 2            # P as a byte address
  srli t2, t0, 29           # the cause
  addi t2, t2, -2
  bnez t2, fault
  lw t2, 0(t1)
  sw t2, FETCHED(x0)
  addi t2, t2, -0x73        # ECALL, or another trap of its cause
  bnez t2, fault
  addi t2, a7, -93
  beqz t2, exits
  addi t2, a7, -64
  beqz t2, writes
  addi t2, a7, -63
  beqz t2, reads
  li a0, -38
back:
  ldhi t0, 0, x0
  addi t0, t0, 0x100        # P + 1
  sthi t0, 0, x0
  lw t0, 32(x0)
  lw t1, 36(x0)
  lw t2, 40(x0)
  mret

writes:                     # a1 is from where, a2 how many; both are as they were behind the call
  lw t0, WRITTEN(x0)
  li t1, 0x7000
  add t2, a2, t0
  bltu t2, t1, 1f
  mv t2, t1
1: sw t2, WRITTEN(x0)
  sw a1, 44(x0)
  sw a2, 48(x0)
  lui a0, 1
  add t0, t0, a0            # to where
  add t2, t2, a0            # up to where
  j copy
reads:                      # a1 is to where, a2 how many at most
  sw a1, 44(x0)
  sw a2, 48(x0)
  lw t0, READ(x0)
  lw t1, INPUT(x0)
  sub t1, t1, t0
  bltu a2, t1, 1f
  mv a2, t1
1: add t1, t0, a2
  sw t1, READ(x0)
  li a0, 0x8000
  add t1, a0, t0            # from where
  mv t0, a1
  add t2, a1, a2
  mv a1, t1
  mv a0, a2
2: bgeu t0, t2, 3f
  lbu t1, 0(a1)
  sb t1, 0(t0)
  addi a1, a1, 1
  addi t0, t0, 1
  j 2b
3: lw a1, 44(x0)
  lw a2, 48(x0)
  j back
copy:
  bgeu t0, t2, 4f
  lbu t1, 0(a1)
  sb t1, 0(t0)
  addi a1, a1, 1
  addi t0, t0, 1
  j copy
4: lw a1, 44(x0)
  lw a2, 48(x0)
  mv a0, a2
  j back

exits:
  andi t0, a0, 255
  li t1, 0x600d0000
  j ends
fault:
  sw t1, PLACE(x0)
  ldhi t0, 0, x0
  srli t0, t0, 29
  li t1, 0xdead0000
ends:
  or t0, t0, t1
  sw t0, STATUS(x0)
halt: j halt
