# For load_real_address_trapping.isa, 6 cells: lr opens the window [1, 6). P is 3 then, which is cell 4: lra stores at address
# 1, which is cell 2, where address 2 lies: in cell 3. Then jmp, in cell 5 at address 4, jumps to itself.
lr l=1 b=5
@4
lra x=1 a=2
jmp a=4
