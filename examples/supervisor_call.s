# For causes.isa, 8 cells: a supervisor call, whose cause 2 the trap stores in cell 0.
svc
