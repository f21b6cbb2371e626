# For cookbook.isa, 60 cells: a supervisor that answers call 1 of its user, by doubling r1 into r2, and lets it go on.
@1
word 0010003c           # the trap vector: (s, 16, (0, 60))
lpsw a=user             # cell 2, where a machine begins
user:
word 01002c10           # (u, 0, (44, 16))
# Cell 16: a trap came. Cell 0 has its status word: from bit 0 b, l and P of 8 bits each, bit 24 the mode, bits 25 and 26 the cause.
@16
ld x=1 y=0              # r1 is that word
sra x=2 y=1 n=24
li x=3 n=5
bne x=2 y=3 a=stop      # 5 is user mode, cause 2, the statement trap: a call
sra x=2 y=1 n=16
sra x=3 y=1 n=8
add x=2 y=2 z=3         # P + l, in the low 8 bits, which are what ld takes: where the call stands
ld x=2 y=2
sra x=2 y=2 n=16
li x=3 n=255
and x=2 y=2 z=3         # the number of the call
li x=3 n=1
bne x=2 y=3 a=back
li x=3 n=53             # the user's r1: its window begins at cell 44, and its registers at address 8
ld x=2 y=3
add x=2 y=2 z=2
li x=3 n=54             # and its r2
st x=3 y=2
back:
li x=3 n=next
ld x=3 y=3
add x=1 y=1 z=3         # P + 1, the place behind the call
st x=0 y=1
lpsw a=0
stop:
jmp a=stop
next:
word 00010000           # one in the place of P
# The user's, from address 0 of its window: 21 is put, and call 1 made; then address 2 jumps to itself.
@44
li x=1 n=21
svc n=1
jmp a=2
