# No cell is given: all are zero, a word that no pattern of m0.isa matches.
