"""Runs of guests that are worked out by hand, step by step."""

from typing import NamedTuple

MACHINE = b"""machine { word 32; address 8; size 64; }
instr add "00000001_xxxxxxxx_yyyyyyyy_zzzzzzzz" { mem[x] = (mem[y] + mem[z]); }
instr jmp "00000010_................_aaaaaaaa" { pc = a; }
instr svc "00000011_........................" { trap; }
instr lr  "00000100_........_llllllll_bbbbbbbb" { if mode { trap; } rel = l; bound = b; }
"""
"""`lr` alone is sensitive, and it is privileged. The word of a program status word is 000M PP LL BB, M being 1 in user mode."""

CAUSES = b"""machine { word 32; address 8; size 64; causes on; }
instr look "00000101_................_aaaaaaaa" { if mode { trap; } let t = mem[a]; }
"""
"""The cause of a trap stands in the two bits above the mode: 02 a memory trap, 04 `trap;`, 06 a word that means nothing."""

DOUBLING = b"2: 01050505 02000002\n5: 00000001\n"
"""add 5 5 5, and a jump back to it: direct steps alone."""


class Row(NamedTuple):
    """A machine that is accepted, the images of its guests, and the lines that `run` writes."""

    description: bytes
    images: tuple[bytes, ...]
    grant: int
    steps: int
    slice: int
    text: tuple[str, ...]


ROWS = (
    # Guest 0 has turns 1 to 3, 7 to 9 and 13: add, jmp, add, jmp, add, jmp, add. Guest 1 has the others, and traps:
    #   svc at 2        stores (s, 2, (0, 8)) in cell 0, and its own cell 1 has (s, 4, (0, 8))      emulated
    #   add 6 6 0 at 4  cell 6 becomes 0 + 00020008                                                 direct
    #   lr 1 8 at 5     R becomes (1, 8), P 6, which is cell 7                                      emulated
    #   jmp 1 at 6      P 1, which is cell 2                                                        direct
    #   svc at 1        stores (s, 1, (1, 8)), enters (s, 4, (0, 8))                                emulated
    #   add 6 6 0 at 4  cell 6 becomes 00020008 + 00010108                                          direct
    #   lr 1 8 at 5     R becomes (1, 8), P 6                                                       emulated
    Row(
        MACHINE,
        (DOUBLING, b"1: 00040008 03000000\n4: 01060600 04000108\n7: 02000001\n"),
        grant=8,
        steps=7,
        slice=3,
        text=(
            *("guest 0", "size 8", "psw s 3 0 8"),
            "0: 00000000 00000000 01050505 02000002 00000000 00000010 00000000 00000000",
            *("guest 1", "size 8", "psw s 6 1 8"),
            "0: 00010108 00040008 03000000 00000000 01060600 04000108 00030110 02000001",
            "steps 14 direct 10",
        ),
    ),
    # The word of cell 1 is (u, 1, (0, 8)) and svc: the first trap, of a zero word at 2, goes to cell 1, and so do all others.
    Row(
        MACHINE,
        (b"1: 03010008\n", DOUBLING),
        grant=8,
        steps=4,
        slice=3,
        text=(
            *("guest 0", "size 8", "psw u 1 0 8"),
            "0: 01010008 03010008 00000000 00000000 00000000 00000000 00000000 00000000",
            *("guest 1", "size 8", "psw s 2 0 8"),
            "0: 00000000 00000000 01050505 02000002 00000000 00000004 00000000 00000000",
            "steps 8 direct 4",
        ),
    ),
    # Guest 0 asks for more than its grant, by the bound and then by the place:
    #   lr 1 255 at 2   R becomes (1, 255): the window is cells 1 to 7, addresses 0 to 6            emulated
    #   add 6 6 6 at 3  cell 7 becomes 5 + 5                                                        direct
    #   add 7 6 6 at 4  address 7 would be cell 0 of guest 1: stores (s, 4, (1, 255))               emulated
    #   at 4, twice     (s, 4, (9, 8)) is past the grant, so there is no window                     emulated
    Row(
        MACHINE,
        (b"1: 00040908 040001ff\n4: 01060606 01070606\n7: 00000005\n", b"2: 02000002\n"),
        grant=8,
        steps=5,
        slice=2,
        text=(
            *("guest 0", "size 8", "psw s 4 9 8"),
            "0: 00040908 00040908 040001ff 00000000 01060606 01070606 00000000 0000000a",
            *("guest 1", "size 8", "psw s 2 0 8"),
            "0: 00000000 00000000 02000002 00000000 00000000 00000000 00000000 00000000",
            "steps 10 direct 6",
        ),
    ),
    # add 1 5 5 makes its own cell 1 (s, 3, (0, 8)), where svc stands: each trap leads into the next one.
    Row(
        MACHINE,
        (b"2: 01010505 03000000\n5: 00018004\n",),
        grant=8,
        steps=3,
        slice=1_000_000,
        text=(
            *("guest 0", "size 8", "psw s 3 0 8"),
            "0: 00030008 00030008 01010505 03000000 00000000 00018004 00000000 00000000",
            "steps 3 direct 1",
        ),
    ),
    # The hardware traps in user mode, by `trap;`; the guest's own step in supervisor mode is a memory trap, and that is stored.
    # Guest 1 is in user mode from its second step on, and guest 2 meets a zero word.
    Row(
        CAUSES,
        (b"1: 00020004 050000ff\n", b"1: 01020004 050000ff\n", b"1: 00020004\n"),
        grant=4,
        steps=2,
        slice=1,
        text=(
            *("guest 0", "size 4", "psw s 2 0 4", "0: 02020004 00020004 050000ff 00000000"),
            *("guest 1", "size 4", "psw u 2 0 4", "0: 05020004 01020004 050000ff 00000000"),
            *("guest 2", "size 4", "psw s 2 0 4", "0: 06020004 00020004 00000000 00000000"),
            "steps 6 direct 0",
        ),
    ),
    # No step: each is as it was switched on.
    Row(
        MACHINE,
        (b"", b"1: 00000001\n"),
        grant=2,
        steps=0,
        slice=3,
        text=(
            *("guest 0", "size 2", "psw s 2 0 2"),
            *("guest 1", "size 2", "psw s 2 0 2", "0: 00000000 00000001"),
            "steps 0 direct 0",
        ),
    ),
)
