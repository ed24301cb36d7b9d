"""What the programs answer where they judge a module."""
from __future__ import annotations

import re
from dataclasses import dataclass

from .errors import Damaged
from .lines import DECIMAL, WORD

NO = re.compile(f"no {WORD} ([A-Za-z]+)(?: {WORD})?")
UNFINISHED = re.compile(f"unfinished {WORD} {DECIMAL}")
YES = re.compile(f"yes(?: {DECIMAL})?")


@dataclass(frozen=True, slots=True)
class Verdict:
    """True where the program says `yes`, which is a theorem.

    Else `answer` is `no`, with the address, the reason and its value, or `unfinished` (of unroll), with the address reached.
    `steps` are those that unroll took.
    """

    answer: str
    address: int | None = None
    reason: str | None = None
    value: int | None = None
    steps: int | None = None

    def __bool__(self) -> bool:
        return self.answer == "yes"

    @classmethod
    def parse(cls, text: str) -> Verdict:
        """The verdict of a line; Damaged where it is none."""
        line = text.removesuffix("\n")
        if (found := YES.fullmatch(line)) is not None:
            return cls("yes", steps=int(found[1]) if found[1] else None)
        if (found := NO.fullmatch(line)) is not None:
            return cls("no", int(found[1], 16), found[2], int(found[3], 16) if found[3] else None)
        if (found := UNFINISHED.fullmatch(line)) is not None:
            return cls("unfinished", int(found[1], 16), steps=int(found[2]))
        raise Damaged(f"no verdict: {line[:60]}")
