# For smsw.isa or popf.isa, 12 cells: a supervisor of two words. It enters a guest of 8 cells in user mode, behind a base. The
# guest's source follows this one.
lpsw a=3        # cell 2, where a machine begins: loads the status word of cell 3
word 1248       # (u, 2, (4, 8)): user mode, P 2, the window of 8 cells from cell 4 on
@6              # the guest's address 2
