# For popf.isa, 8 cells: a guest whose supervisor pops its flags, and clears bit 3 by that. Its addresses are numbers, so that it
# can lie in any window.
popf s=4 f=6    # address 2, where a machine begins: pops the word on the stack into address 6
jmp a=3         # address 3: jumps to itself, for ever
word 0005       # address 4: the stack pointer
word 0001       # address 5: the word on the stack: bit 0 is set, bit 3 is not
word 0008       # address 6: the flags: bit 3 is set
