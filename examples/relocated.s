# For m0.isa, 16 cells: lr opens the window [4, 12); then P is 3, which is cell 7, where add makes cell 4 of the storage the
# sum of cell 11 with itself. Address 7 is the last one that is usable.
lr l=4 b=8
@7
add x=0 y=7 z=7
@11
word 00000005
