#!/usr/bin/env python3
"""Writes a description of many instructions, each with one of six bodies at random.

    bench/generated.py SIZE NUMBER

SIZE is at most 255; the same NUMBER gives the same description.
"""

import sys

FIELDS = "xxxxxxxxyyyyyyyyzzzzzzzz"
BODIES = (
    "mem[x] = (mem[y] + mem[z]);",
    "mem[x] = (mem[y] ^ mem[z]);",
    "if (mem[y] == mem[z]) { pc = x; }",
    "trap;",
    "if mode { trap; } rel = x; bound = y;",
    "if mode { trap; } mem[x] = ext(rel, 32);",
)


def draws(number):
    while True:
        number = (number * 6364136223846793005 + 1442695040888963407) % 2**64
        yield number // 2**32


def main():
    size, number = int(sys.argv[1]), int(sys.argv[2])
    print("machine { word 32; address 8; size 128; }")
    for k, draw in zip(range(size), draws(number)):
        print(f'instr g{k} "{k + 1:08b}{FIELDS}" {{ {BODIES[draw % len(BODIES)]} }}')


if __name__ == "__main__":
    main()
