# For m0.isa: doubles cell 5 and jumps back, for ever.
top:
add x=5 y=5 z=5
jmp a=top
@5
word 00000001
