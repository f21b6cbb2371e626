"""Checks of changed copies of a crate by the kit's prover, over libraries that are proved already, and what is read of what it says."""

import functools
import os
import re
import shutil
import subprocess
import sys
import tempfile
from importlib.machinery import SourceFileLoader
from importlib.util import module_from_spec, spec_from_loader
from pathlib import Path

TOLD = re.compile(r"(?:note: )?(?:\./)?(\S+?):(\d+):\d+: (?:(error|warning|note): )?(.*)")
FUNCTION = re.compile(r"fn (\S+): (proved|not proved|no proof|could not tell|no holes|assumed|not assumed)\b(.*)")
GOAL = re.compile(r"\(`([^`]+)`\)")
ANSWER = re.compile(r"(?:\./)?proofs/(\S+)/\w+\.antt:\d+:\d+: error: `([^`]+)`: (.*)")
UNSOLVED = re.compile(r"`search` did not prove ((?:`[^`]+`(?:, | and )?)+)")
TAKEN_AWAY = re.compile(r"has no field|is not in scope|has no `|was not admitted")
REFUSED = re.compile(r"(?:\./)?(src/\S+?):(\d+):\d+: error\[")
LIMIT = re.compile(r"antt ran out of|outgrew the memory limit|stopped at the step limit")


class OtherKit(Exception):
    """Why the kit that is found cannot be called as this file calls it."""


class Unproved(Exception):
    """The crates below that are not proved."""


class Function:
    """What the prover says of one function of a changed crate."""

    def __init__(self):
        self.is_proved, self.says, self.open, self.unread = False, "", [], []

    def leave_open(self, goal, why):
        """Notes a goal that is left open, or one whose answer only names what a change took away."""
        held = self.unread if TAKEN_AWAY.search(why) else self.open
        if goal not in held:
            held.append(goal)


class Answer:
    """What the prover says of a changed crate: status, functions by their paths, and the lines of sources that do not compile."""

    def __init__(self, crate, ran):
        self.status, self.text = ran.returncode, ran.stdout
        self.functions, self.refused, notes, answers = {}, [], [], {}
        for line in ran.stdout.split("\n"):
            self.read(crate, line, notes, answers)
        for path, goal, why in ((path, *it) for path, found in answers.items() for it in found):
            for name in filter(lambda name: is_answered(name, path, goal), self.functions):
                self.functions[name].leave_open(goal, why)

    def read(self, crate, line, notes, answers):
        """Reads one line. The notes of a function's goals come above its own line, and what is wrong with written answers above all."""
        told, answer, function = TOLD.match(line), ANSWER.match(line), FUNCTION.match(line)
        if REFUSED.match(line):
            self.refused.append((told[1], int(told[2]), told[4]))
        elif answer:
            answers.setdefault(answer[1], []).append((answer[2], answer[3]))
        elif function:
            found = self.functions[function[1].removeprefix(f"{crate}::")] = Function()
            found.is_proved, found.says = function[2] == "proved", line
            unsolved = UNSOLVED.search(function[3])
            for goal in notes + re.findall(r"`([^`]+)`", unsolved[1] if unsolved else "") if not found.is_proved else ():
                found.leave_open(goal, "")
            notes.clear()
        elif told and line.startswith("note: ") and told[1].startswith("src/"):
            notes += GOAL.findall(told[4])[:1]


def is_answered(name, path, goal):
    """Whether an answer for a goal in a folder of proofs is one for a function. Functions that call one another share a folder, whose
    name begins with `+`, and their goals begin with their names."""
    folder, _, last = path.rpartition("/")
    module, _, function = name.replace("::", "/").rpartition("/")
    return module == folder and goal.startswith(f"{function}-") if last.startswith("+") else name.replace("::", "/") == path


@functools.lru_cache(maxsize=1)
def library_of_rt():
    """The kit's own library, which the command rt is made of."""
    sys.dont_write_bytecode = True
    rt = shutil.which("rt")
    if not rt:
        raise OtherKit("there is no command rt")
    loader = SourceFileLoader("rtlib", os.path.join(os.path.dirname(os.path.realpath(rt)), "rtlib.py"))
    rtlib = module_from_spec(spec_from_loader("rtlib", loader))
    sys.modules["rtlib"] = rtlib
    loader.exec_module(rtlib)
    return rtlib


class Prover:
    """The kit's prover at one crate, over the libraries that a tree's crates have in `out`."""

    def __init__(self, top, name, over):
        try:
            self.rtlib = library_of_rt()
            self.crate = self.rtlib.Crate(f"{top}/crates/{name}", str(top), {})
            below = self.crate.below()
            _ = [self.rtlib.RATTLE, self.rtlib.PARTS, self.rtlib.STALE, self.crate.words([*JOBS], keeps=False), self.rtlib.guarded]
        except (AttributeError, ImportError, OSError, TypeError) as error:
            raise OtherKit(str(error)) from error
        for it in below:
            it.rlib = f"{over}/crates/{it.name}/out/rlib/{it.name}.rlib"
        missing = [it.name for it in below if not os.path.exists(f"{it.rlib}/format")]
        if missing:
            raise Unproved(missing)
        # (it starts a process that ends with this one, which only the main thread may)
        self.guard = self.rtlib.guarded()
        self.checks, self.kept = 0, None

    def start(self):
        """Begins with a copy of the work that earlier checks of the crate kept, where there is some."""
        self.kept = tempfile.TemporaryDirectory(prefix="pgv-wrong-")
        start = Path(self.crate.folder, "out/incremental")
        if start.is_dir():
            shutil.copytree(start, self.kept.name, symlinks=True, dirs_exist_ok=True)

    def end(self):
        """Removes the work that was kept."""
        if self.kept:
            self.kept.cleanup()

    def check(self, texts, functions):
        """What the prover says of the crate with these texts in place of its own: of these functions and what they call, or of all."""
        if not self.kept:
            self.start()
        words = [word for function in functions for word in ("--only", function)]
        with tempfile.TemporaryDirectory(prefix="pgv-wrong-") as room:
            for part in self.rtlib.PARTS:
                if os.path.isdir(f"{self.crate.folder}/{part}"):
                    shutil.copytree(f"{self.crate.folder}/{part}", f"{room}/{part}")
            for path, text in texts.items():
                Path(room, path).write_text(text)
            words = [self.rtlib.RATTLE, "check", *self.crate.words([*JOBS, *words], keeps=False), "--incremental", self.kept.name]
            how = {"cwd": room, "stdin": subprocess.DEVNULL, "stdout": subprocess.PIPE, "stderr": subprocess.STDOUT}
            ran = subprocess.run([*self.guard, *words], text=True, errors="replace", check=False, **how)
        self.keep(ran.stdout)
        return Answer(self.crate.name, ran)

    def keep(self, said):
        """Keeps what was said of a check in the crate's `out/wrong`, for a reader."""
        self.checks += 1
        os.makedirs(f"{self.crate.folder}/out/wrong", exist_ok=True)
        Path(self.crate.folder, f"out/wrong/{self.checks}.txt").write_text(said)


JOBS = ("--jobs", "1")
