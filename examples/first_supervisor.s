# For classroom.isa, 24 cells: a supervisor that counts the calls of its user, and lets it go on behind each.
@1
word 00040018           # cell 1, the trap vector: (s, 4, (0, 24)), so that each trap goes on in cell 4
lpsw a=user             # cell 2, where a machine begins: the user's first turn
user:
word 01000c0c           # (u, 0, (12, 12))
# Cell 4: a trap came, and cell 0 holds the user's status word, with the P of its call.
add x=calls y=calls z=one
add x=0 y=0 z=next      # P + 1, the word behind the call
lpsw a=0
calls:
word 00000000
one:
word 00000001
next:
word 00010000           # one in the place of P
# The user's, addresses 0 and 1 of its window [12, 24): it calls, and jumps back, for ever.
@12
svc
jmp a=0
