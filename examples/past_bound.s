# For m0.isa, 16 cells: as relocated.s, but the sum reads address 8, which is the bound: a memory trap, and cell 4 stays as it
# was.
lr l=4 b=8
@7
add x=0 y=7 z=8
@11
word 00000005
