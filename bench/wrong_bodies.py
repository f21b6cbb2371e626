"""Wrong bodies are tried: in as few checks of a crate as may be, each by the goal that it has to leave open."""

import sys
import time

from edits import Unfit, apply, enclosing, places


def say(words):
    print(f"bench/wrong: {words}", file=sys.stderr, flush=True)


def functions_of(edit):
    """The functions that an edit stands in or has its goal in; none where it stands in no function."""
    names = {name for _, _, name in places(edit)}
    return set() if "" in names else names | {edit.function()} - {""}


def overlap(edit, other):
    spans = [(change.path, *change.span(edit.folder)) for change in edit.changes]
    others = [(change.path, *change.span(other.folder)) for change in other.changes]
    return any(one[0] == two[0] and one[1] < two[2] and two[1] < one[2] for one in spans for two in others)


def clash(edit, other, twins):
    """Whether two edits of a crate have to be tried apart: where they stand in one function, or one of them stands in none."""
    if twins:
        return overlap(edit, other)
    mine, others = functions_of(edit), functions_of(other)
    return not mine or not others or bool(mine & others)


def rounds(edits, twins=False):
    """The edits in as few checks as may be."""
    found = []
    for edit in edits:
        home = next((others for others in found if not any(clash(edit, other, twins) for other in others)), None)
        if home is None:
            found.append(home := [])
        home.append(edit)
    return found


def asked(edits, twins):
    """The functions to check, or none, for all, where that cannot be told."""
    names = [{edit.function()} if edit.function() and not twins else functions_of(edit) for edit in edits]
    return sorted(set().union(*names)) if all(names) else []


def checked(prover, edits, twins=False):
    """What the prover says of the crate with these edits in it. Where it finds no such function, all are checked."""
    begun, texts, names = time.monotonic(), apply(edits, twins), asked(edits, twins)
    answer = prover.check(texts, names)
    if answer.status == 2 and names:
        answer = prover.check(texts, [])
    say(f"{edits[0].crate}: {len(edits)} of its edits in {time.monotonic() - begun:.0f} s")
    return answer


def refused_by(edit, answer, texts):
    """Why an edit does not compile; none where it does."""
    mine = places(edit)
    for path, line, why in answer.refused:
        at = enclosing(path, texts[path].split("\n"), line - 1) if path in texts else None
        if at and (path, at[2]) in {(it[0], it[2]) for it in mine}:
            return why
    return ""


def judged(edit, answer):
    """Whether an edit is shown, and what is to be said of it."""
    if not edit.goal:
        shown = [f"{name} {it.open[0]}" for name, it in answer.functions.items() if it.open and stands_in(edit, name)]
        return bool(shown), shown[0] if shown else "no function that it stands in fails at a goal of its own"
    name, _, goal = edit.goal.partition(" ")
    found = answer.functions.get(name)
    if found is None:
        last = next((line for line in reversed(answer.text.split("\n")) if line.strip()), "nothing")
        return False, f"the prover names no function {name} (status {answer.status}): {last[:160]}"
    if found.is_proved:
        return False, f"{name} is proved with it"
    if goal in found.open:
        return True, f"{name} {goal}"
    if found.open:
        return False, f"{name} fails at {', '.join(found.open)}, and not at {goal}"
    if found.unread:
        return False, f"{name} fails only because the answers for {', '.join(found.unread)} name what it takes away"
    return False, f"{name} fails at no goal of its own:{found.says.partition(':')[2].rpartition(':')[2][:160]}"


def try_round(prover, edits):
    """Each edit of a check with whether it is shown and what is to be said of it."""
    answer, texts = checked(prover, edits), apply(edits)
    bad = {edit: refused_by(edit, answer, texts) for edit in edits} if answer.refused else {}
    if not answer.refused:
        return [(edit, answer, "") for edit in edits]
    if not any(bad.values()):
        if len(edits) == 1:
            return [(edits[0], answer, answer.refused[0][2])]
        return [tried for edit in edits for tried in try_round(prover, [edit])]
    rest = [edit for edit in edits if not bad[edit]]
    return [(edit, answer, bad[edit]) for edit in edits if bad[edit]] + (try_round(prover, rest) if rest else [])


def fitting(edits):
    """The edits that apply, and a sentence for each other one."""
    good, bad = [], []
    for edit in edits:
        try:
            apply([edit])
            good.append(edit)
        except Unfit as why:
            bad.append((edit, False, str(why)))
    return good, bad


def tried(prover, edits, writes):
    """Each of these edits, with whether it is shown and what is to be said of it. Those without a goal get one where `writes` says so."""
    good, bad = fitting(edits)
    ready = [edit for edit in good if writes or edit.goal or edit.no_goal]
    found = bad + [(edit, False, "it has no line goal:") for edit in good if edit not in ready]
    for group in rounds(ready):
        found += [settled(prover, it, writes, len(group) == 1) for it in try_round(prover, group)]
    return sorted(found, key=lambda it: str(it[0]))


def settled(prover, one, writes, is_alone):
    """An edit that was tried, with whether it is shown and what is to be said of it. One that is not shown beside others is tried alone:
    of a function whose callee is not proved the prover does not name each goal."""
    edit, answer, why = one
    if writes and not why and not edit.goal and not edit.no_goal and first_goal(edit, answer):
        edit.put_goal(first_goal(edit, answer))
    is_shown, words = (False, f"it does not compile: {why}") if why else judged(edit, answer)
    if is_shown or is_alone:
        return edit, is_shown, words
    return settled(prover, try_round(prover, [edit])[0], writes, True)


def twins_of(prover, edits):
    """Each edit with why its twin is not proved. Where a check of several does not prove a function, the twins in it are tried apart."""
    answer, texts = checked(prover, edits, twins=True), apply(edits, twins=True)
    if len(edits) == 1 and answer.status:
        return [(edits[0], unproved(answer)[:200])]
    bad = [edit for edit in edits if answer.status and (refused_by(edit, answer, texts) or has_unproved(edit, answer))]
    bad = edits if answer.status and not bad else bad
    good = [edit for edit in edits if edit not in bad]
    if answer.refused and good:
        # (nothing was proved beside those that do not compile)
        return twins_of(prover, good) + [found for edit in bad for found in twins_of(prover, [edit])]
    return [(edit, "") for edit in good] + [found for edit in bad for found in twins_of(prover, [edit])]


def has_unproved(edit, answer):
    """Whether a function that an edit stands in is not proved, where the crate compiles."""
    mine = [it for name, it in answer.functions.items() if stands_in(edit, name)]
    return not answer.refused and not (mine and all(it.is_proved for it in mine))


def unproved(answer):
    """What is said first of what is not proved."""
    if answer.refused:
        return answer.refused[0][2]
    return next((it.says for it in answer.functions.values() if not it.is_proved), "there is no verdict")


def first_goal(edit, answer):
    """The goal that an edit leaves open in a function that it stands in, where it does: of several, that of a clause that it names."""
    goals = [(name, goal) for name, it in answer.functions.items() if stands_in(edit, name) for goal in it.open]
    words = [word.strip(",.:;()`") for word in edit.shows.split()]
    named = [it for it in goals if it[1].rpartition("clause-")[2] in words]
    return " ".join((named or goals or [("", "")])[0]).strip()


def stands_in(edit, name):
    """Whether an edit stands in a function, by the prover's name of it, in which a method goes by the module of its type."""
    mine = functions_of(edit)
    return not mine or name in mine or is_closure(name, mine) or method(name) in {method(it) for it in mine} - {""}


def method(name):
    """The type and the name of a method; none of another function."""
    parts = name.split("::")[-2:]
    return "::".join(parts) if parts[0][:1].isupper() else ""


def is_closure(name, functions):
    return "fn::" in name and any(function.rpartition("::")[2] in name.split("::") for function in functions)
