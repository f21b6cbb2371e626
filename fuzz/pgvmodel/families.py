"""The two families of kinds: that of a monitor, and that of a hybrid one, which interprets all of supervisor mode.

For a hybrid monitor it is enough that an instruction is sensitive in no way which user states show. Each family has
certificates of its own.
"""

from dataclasses import dataclass

from pgvmodel.pairs import KINDS, PRIVILEGED, USER_SENSITIVE


@dataclass(frozen=True)
class Family:
    """The kinds, `privileged` first; the word that begins a certificate of them, and the versions that may stand behind it.

    In the last of these versions a refutation may take clauses away; it is the one that is saved.
    """

    kinds: tuple[str, ...]
    word: str
    versions: tuple[str, ...]

    @property
    def first_line(self) -> str:
        """The first line of what is saved."""
        return f"{self.word} {self.versions[-1]}"


PURE = Family(KINDS, "pgcert", ("1", "2"))
HYBRID = Family((PRIVILEGED, *USER_SENSITIVE), "pghybrid", ("1",))
