"""Terms of what a module may tell, and certificates (arms) of its branches."""
from __future__ import annotations

import os
from dataclasses import dataclass

from .errors import Damaged
from .lines import DECIMAL, WORD, Lines, load, rising


@dataclass(frozen=True, slots=True)
class Terms:
    """The registers (1, 2, 4 to 15) that may be answers, and the addresses of the public words of the data."""

    answers: tuple[int, ...] = ()
    public: tuple[int, ...] = ()

    @classmethod
    def parse(cls, text: str) -> Terms:
        """The terms of a text; Damaged where it has none."""
        lines, answers, public = Lines(text, last_may_lack_lf=True), list[int](), list[int]()
        while (found := lines.try_take("answer r([124-9]|1[0-5])")) is not None:
            answers.append(rising(lines, answers[-1] if answers else 0, int(found[1]), "the register"))
        while lines:
            at = int(lines.take(f"public {WORD}", "term")[1], 16)
            if at % 2:
                raise lines.error("a public word at an odd address")
            public.append(rising(lines, public[-1] if public else -1, at, "the address"))
        if len(answers) + len(public) > 270:
            raise Damaged("more than 270 terms")
        return cls(tuple(answers), tuple(public))

    @classmethod
    def load(cls, path: str | os.PathLike[str]) -> Terms:
        """The terms of a file."""
        return load(path, cls.parse)

    @property
    def text(self) -> str:
        """The text that `sancus-lab` reads."""
        return "".join([f"answer r{n}\n" for n in self.answers] + [f"public {at:04x}\n" for at in self.public])


@dataclass(frozen=True, slots=True)
class Arms:
    """Certificates: of each branch its address, the address at which both arms meet, and the cycles that each takes."""

    rows: tuple[tuple[int, int, int], ...] = ()

    @classmethod
    def parse(cls, text: str) -> Arms:
        """The certificates of a text; Damaged where it has none."""
        lines, rows = Lines(text, last_may_lack_lf=True), list[tuple[int, int, int]]()
        while lines:
            found = lines.take(f"{WORD} {WORD} {DECIMAL}", "certificate")
            at = rising(lines, rows[-1][0] if rows else -1, int(found[1], 16), "the address of a branch")
            if int(found[3]) > 65535:
                raise lines.error("more than 65535 cycles")
            rows.append((at, int(found[2], 16), int(found[3])))
        if len(rows) > 256:
            raise Damaged("more than 256 certificates")
        return cls(tuple(rows))

    @classmethod
    def load(cls, path: str | os.PathLike[str]) -> Arms:
        """The certificates of a file."""
        return load(path, cls.parse)

    @property
    def text(self) -> str:
        """The text that the programs read."""
        return "".join(f"{at:04x} {join:04x} {cycles}\n" for at, join, cycles in self.rows)
