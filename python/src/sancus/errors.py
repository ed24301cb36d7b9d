"""What goes wrong, each with its own exception below SancusError."""
from __future__ import annotations

STATUS = {2: "usage", 3: "stopped", 4: "bad file", 5: "link", 6: "cannot read", 7: "cannot write", 8: "no memory", 9: "no"}


class SancusError(Exception):
    """There is no answer."""


class Damaged(SancusError, ValueError):
    """A text that is not of its format: what is wrong, in which line (from 1) of which file, where these are known."""

    def __init__(self, what: str, line: int | None = None, file: str | None = None) -> None:
        self.what, self.line, self.file = what, line, file
        super().__init__(what, line, file)

    def __str__(self) -> str:
        parts = [self.file, f"line {self.line}" if self.line is not None else None, self.what]
        return ": ".join(part for part in parts if part is not None)


class ProgramMissing(SancusError):
    """No program was found, or not the one that is wanted."""


class Refused(SancusError):
    """The program's refusal.

    `status` is its exit status and `line` its message. `kind` names the status, `file` the refused file (or None),
    `fault` the named fault and `words` what follows it: `Undefined` and `["0", "5"]`.
    """

    def __init__(self, status: int, line: str, file: str | None = None) -> None:
        super().__init__(line)
        self.status, self.line, self.kind, self.file = status, line, STATUS.get(status, "unknown"), file
        _, _, rest = line.partition(": ")
        if rest.startswith("bad file "):
            name, _, rest = rest.removeprefix("bad file ").rpartition(": ")
            self.file = file or name
        elif rest.startswith("cannot read "):
            self.file = file or rest.removeprefix("cannot read ")
        self.fault, *self.words = rest.removeprefix("link ").split(" ")

    def __reduce__(self) -> tuple[type[Refused], tuple[int, str, str | None]]:
        return type(self), (self.status, self.line, self.file)


class BadFile(Refused):
    """Status 4: a file is refused."""


class NoLink(Refused):
    """Status 5: the objects do not link."""


class NoMemory(Refused):
    """Status 8: memory ran out. The run may be tried again."""


class Died(Refused):
    """A signal ended the program before it answered. The run may be tried again."""
