# For widen.isa: cells 4 and 5 are treated in turn.
t a=4
t a=5
word 0000000c
word 00000123
