"""Guests of a hybrid monitor, which makes each step of a guest's own supervisor mode by itself, and leaves user mode to the hardware.

So a guest comes to the state of a bare machine, whatever its mode; but a step that begins in supervisor mode is never direct.
"""

from pgvmodel import tree
from pgvmodel.machine import USER, Machine, State, power_on


def run_hybrid_guest(description: tree.Description, cells: list[int], steps: int, base: int) -> tuple[State, int]:
    """The state of a guest after so many steps from power-on, and how many of them the hardware made without a trap.

    Its grant begins at cell `base`.
    """
    machine = Machine(description)
    guest = power_on(cells)
    direct = 0
    for _ in range(steps):
        if guest.psw.mode == USER and machine.is_direct(guest, base):
            direct += 1
        machine.step(guest)
    return guest, direct
