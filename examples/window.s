# For m0.isa, 16 cells: lr opens the window [8, 16), so that P, which is 3 then, is cell 11. There add adds cell 15, which is
# address 7, to cell 8, and jmp jumps back, for ever.
lr l=8 b=8
@11
add x=0 y=0 z=7
jmp a=3
@15
word 00000001
