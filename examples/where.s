# For load_real_address_trapping.isa, 3 cells: jmp in cell 2, where a machine begins, jumps to lra in cell 1, which stores at
# address 0 where address 1 lies; and so on, for ever.
@1
again:
lra x=0 a=again
jmp a=again
