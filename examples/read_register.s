# For read_register_split.isa, 6 cells; read_register.isa has the same words. lr opens the window [1, 6). P is 3 then, which
# is cell 4: rdp stores where the window lies at address 1, which is cell 2; rdu stores the version of the machine at address
# 2.
lr l=1 b=5
@4
rdp x=1
rdu x=2
