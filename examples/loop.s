# For m0.isa: jumps to itself for ever.
here:
jmp a=here
