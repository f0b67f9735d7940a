"""What a user can mend, in one line: what it is about, the reason, and what to do."""
from __future__ import annotations


class Fault(ValueError):
    """A failure that is told in one line: `about: reason; remedy`.

    `about` is the name of a file or a program, `remedy` what to do, and empty where nothing can be done. It can be pickled, so it
    comes out of another process as it went in.
    """

    def __init__(self, about: object, reason: str, remedy: str = "") -> None:
        self.about, self.reason, self.remedy = str(about).replace("\n", "\\n"), reason, remedy
        super().__init__(f"{self.about}: {reason}" + (f"; {remedy}" if remedy else ""))

    def __reduce__(self) -> tuple[type[Fault], tuple[str, str, str]]:
        return type(self), (self.about, self.reason, self.remedy)


class Missing(Fault):
    """The proved program, or a package, that is not where it is looked for."""


class Full(Fault):
    """A disk without room: it ends a run, since every further image would fail by it."""


class Busy(Fault):
    """A folder that another run has in hand."""
