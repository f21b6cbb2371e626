"""Certificates as the program makes them: what its `check` and `hcheck` save of a description."""

import subprocess
import tempfile
from functools import lru_cache
from pathlib import Path
from typing import NamedTuple

from inputs.case import CERTIFICATE_FILE, DESCRIPTION_FILE
from pgvmodel.questions import Questions

SECONDS = 60
"""A check that takes longer is left."""

MOST_BYTES = 500_000
"""Longer certificates take the model too long."""

MOST_KEPT = 200
"""Certificates that are kept; some rounds ask for those of a few descriptions often."""


class Checker:
    """Runs a program's `check` or `hcheck`, in a folder of its own."""

    def __init__(self, program: Path | None = None) -> None:
        self.program = program
        self._kept = lru_cache(MOST_KEPT)(self._checked)

    def certificate(self, description: bytes, budget: int, command: str = "check") -> bytes | None:
        """What is saved; None where there is no program, or it saved nothing, or nothing that is short enough."""
        return self._kept(description, budget, command) if self.program else None

    def _checked(self, description: bytes, budget: int, command: str) -> bytes | None:
        with tempfile.TemporaryDirectory(prefix="pgv-fuzz-check-") as folder:
            (Path(folder) / DESCRIPTION_FILE).write_bytes(description)
            words = [self.program, command, DESCRIPTION_FILE, "--cert", CERTIFICATE_FILE, "--budget", str(budget)]
            try:
                subprocess.run(words, cwd=folder, capture_output=True, timeout=SECONDS, check=False)
            except subprocess.TimeoutExpired:
                return None
            saved = Path(folder) / CERTIFICATE_FILE
            return saved.read_bytes() if saved.is_file() and saved.stat().st_size <= MOST_BYTES else None


FEW = 5
"""Runs of guests of one machine, mostly."""


class Means(NamedTuple):
    """What inputs are made with beside chance: the clauses of questions, and certificates as the program makes them.

    A machine of guests is run `few` times, since it takes longer to check it than to run it.
    """

    questions: Questions
    checker: Checker
    few: int = FEW
