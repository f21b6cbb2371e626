"""Which two states show a kind of an instruction: that it is not privileged, or sensitive in one of seven ways."""

from collections.abc import Callable

from pgvmodel.body import Done
from pgvmodel.machine import SUPERVISOR, USER, Cause, Machine, State, window

PRIVILEGED, CONTROL, MODE, LOCATION, BOUND = "privileged", "control", "mode", "location", "bound"

SENSITIVE = (CONTROL, MODE, LOCATION, BOUND)
"""What a privileged instruction may be."""

KINDS = (PRIVILEGED, *SENSITIVE)
"""In the order in which they are asked and told."""

USER_SENSITIVE = ("ucontrol", "ulocation", "ubound")
"""What a hybrid monitor asks in place of SENSITIVE."""

ALL_KINDS = (*KINDS, *USER_SENSITIVE)

IN_USER_MODE = dict(zip(USER_SENSITIVE, (CONTROL, LOCATION, BOUND)))
"""The kind that has to be shown, by states that are both in user mode."""

Ending = Done | Cause


def shows(machine: Machine, number: int, kind: str, first: State, second: State) -> bool:
    """Whether the instruction of this number stands at both states, and they show the kind of it."""
    if not (_is_at(machine, number, first) and _is_at(machine, number, second)):
        return False
    if kind in IN_USER_MODE:
        if not first.psw.mode == second.psw.mode == USER:
            return False
        kind = IN_USER_MODE[kind]
    if not _IS_PAIR[kind](first, second):
        return False
    return _SHOWN[kind](first, *(machine.attempt(window(state), state.psw) for state in (first, second)))


def _is_at(machine: Machine, number: int, state: State) -> bool:
    """Whether P is usable, and the word there means this instruction."""
    seen = window(state)
    meaning = machine.decoders[number]
    return state.psw.p < len(seen) and seen[state.psw.p] & meaning.fixed == meaning.ones


def _differ_in_mode(first: State, second: State) -> bool:
    """A supervisor state, then the same in user mode."""
    return first.psw.mode == SUPERVISOR and State(first.cells, first.psw._replace(mode=USER)) == second


def _differ_in_location(first: State, second: State) -> bool:
    """Storages of one size, and windows of equal content at different places of them; all else of the registers is equal."""
    return (
        len(first.cells) == len(second.cells)
        and first.psw.l != second.psw.l
        and first.psw._replace(l=second.psw.l) == second.psw
        and window(first) == window(second)
    )


def _differ_in_bound(first: State, second: State) -> bool:
    """Windows of equal content under different bounds, in storages of any sizes; all else of the registers is equal."""
    return (
        first.psw.b != second.psw.b
        and first.psw._replace(b=second.psw.b) == second.psw
        and window(first) == window(second)
    )


_IS_PAIR: dict[str, Callable[[State, State], bool]] = {
    PRIVILEGED: _differ_in_mode,
    CONTROL: lambda first, second: first == second,
    MODE: _differ_in_mode,
    LOCATION: _differ_in_location,
    BOUND: _differ_in_bound,
}


def _observed(ending: Ending) -> object:
    """What is seen of an ending: how it trapped, or the window and P; mode, l and b are no part of it."""
    return (ending.window, ending.psw.p) if isinstance(ending, Done) else ending


def _breaks_privilege(_first: State, supervisor: Ending, user: Ending) -> bool:
    """In user mode it is done; or it traps in supervisor mode, and neither ending is a memory trap."""
    return isinstance(user, Done) or supervisor is user is Cause.INSTRUCTION


def _changes_control(first: State, ending: Ending, _same: Ending) -> bool:
    """It is done, and the mode, l or b is another one."""
    return isinstance(ending, Done) and ending.psw._replace(p=first.psw.p) != first.psw


def _tells_the_mode(_first: State, supervisor: Ending, user: Ending) -> bool:
    """In user mode it is done, and in supervisor mode something else is seen."""
    return isinstance(user, Done) and _observed(supervisor) != _observed(user)


def _tells_the_place(_first: State, here: Ending, there: Ending) -> bool:
    """At least at one of both it is done, and at the other something else is seen."""
    return (isinstance(here, Done) or isinstance(there, Done)) and _observed(here) != _observed(there)


_SHOWN: dict[str, Callable[[State, Ending, Ending], bool]] = {
    PRIVILEGED: _breaks_privilege,
    CONTROL: _changes_control,
    MODE: _tells_the_mode,
    LOCATION: _tells_the_place,
    BOUND: _tells_the_place,
}
