# For m0.isa, 16 cells: lr opens a window that the storage cuts off after six cells. P is 3 then, which is cell 13. Address 6
# is below the bound and past the storage, a memory trap.
lr l=10 b=20
@13
add x=0 y=5 z=6
