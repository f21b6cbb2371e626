#!/usr/bin/env python3
"""Checks a log in the format LRAT against clauses in the format DIMACS CNF.

    bench/lrat_check.py CNF LRAT

The steps of `pg_export` are of reverse unit propagation alone, and so are those that are taken here. It writes `verified` and ends
with 0 where the empty clause is reached; else it says which line is at fault, and ends with 1.
"""

import sys


def clauses_of(path):
    """The clauses of a formula, by their numbers from 1 on."""
    literals, held = [], {}
    for line in open(path):
        if line[:1] in "cp":
            continue
        for word in line.split():
            if word == "0":
                held[len(held) + 1] = literals
                literals = []
            else:
                literals.append(int(word))
    return held


def follows(held, literals, hints):
    """Whether the clauses of the hints, in order, are each unit under what was set, and the last one false."""
    true = {-literal for literal in literals}
    for place, hint in enumerate(hints):
        if hint not in held:
            return False
        left = [literal for literal in held[hint] if -literal not in true]
        if not left:
            return place + 1 == len(hints)
        if len(left) > 1:
            return False
        true.add(left[0])
    return False


def main():
    held = clauses_of(sys.argv[1])
    for number, line in enumerate(open(sys.argv[2]), 1):
        words = line.split()
        if words[1] == "d":
            for word in words[2:-1]:
                del held[int(word)]
            continue
        end = words.index("0")
        literals = [int(word) for word in words[1:end]]
        hints = [int(word) for word in words[end + 1 : -1]]
        if not follows(held, literals, hints):
            print(f"line {number}: the clause does not follow")
            return 1
        held[int(words[0])] = literals
        if not literals:
            print("verified")
            return 0
    print("the empty clause is not reached")
    return 1


if __name__ == "__main__":
    sys.exit(main())
