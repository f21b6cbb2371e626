# For cookbook.isa, 40 cells: what the recipes come to, in the registers, cells 8 to 15.
jmp a=start             # cell 2, where a machine begins; the program goes round the registers
@16
start:
li x=7 n=40             # the stack grows down from the end of the storage
li x=0 n=5              # r0 stays zero
li x=1 n=65528          # minus 8, by its 16 bits
li x=2 n=1
slt x=3 y=1 z=2         # minus 8 is below 1: r3 becomes 1
sra x=4 y=1 n=1         # r4 becomes minus 4
push y=4
pop x=5                 # and r5
call a=version
end:
jmp a=end
version:
rdu x=6                 # r6 becomes 3
ret
