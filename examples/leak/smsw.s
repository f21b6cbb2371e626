# For smsw.isa, 8 cells: a guest that asks for its mode. Its addresses are numbers, so that it can lie in any window.
smsw x=4        # address 2, where a machine begins: stores the mode at address 4
jmp a=3         # address 3: jumps to itself, for ever
word ffff       # address 4: the mode comes here
