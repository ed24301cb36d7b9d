"""Schedules: what comes from outside, and in which cycle."""
from __future__ import annotations

import os
from dataclasses import dataclass

from .errors import Damaged
from .lines import CYCLE, Lines, load, rising

MOST = 65536
ROW = f"{CYCLE} (?:line ([0-3]) (up|down)|serial ([0-9a-f]{{2}}))"


@dataclass(frozen=True, slots=True)
class Schedule:
    """`Schedule().pulse(13).serial(400, b"J")`: rows of a cycle and what comes in it, sorted by cycle.

    Each call gives a new schedule. Cycles count from 0; an event that is added stands behind those of its cycle.
    """

    rows: tuple[tuple[int, str], ...] = ()

    def _with(self, *rows: tuple[int, str]) -> Schedule:
        if any(not 0 <= at < 10 ** 18 for at, _ in rows):
            raise ValueError("a cycle below 0, or of more than 18 digits")
        if len(self.rows) + len(rows) > MOST:
            raise ValueError(f"more than {MOST} events")
        return Schedule(tuple(sorted(self.rows + rows, key=lambda row: row[0])))

    def line(self, cycle: int, up: bool, number: int = 0) -> Schedule:
        """The level of a line, 0 to 3, from a cycle on."""
        if number not in range(4):
            raise ValueError("lines are 0 to 3")
        return self._with((cycle, f"line {number} {'up' if up else 'down'}"))

    def pulse(self, cycle: int, line: int = 0, width: int | None = None) -> Schedule:
        """A line goes up, and down again after `width` cycles, or never."""
        up = self.line(cycle, True, line)
        return up if width is None else up.line(cycle + width, False, line)

    def serial(self, cycle: int, data: bytes, gap: int = 100) -> Schedule:
        """Bytes on the serial line, one each `gap` cycles."""
        return self._with(*((cycle + gap * n, f"serial {byte:02x}") for n, byte in enumerate(data)))

    @property
    def text(self) -> str:
        """The text that the programs read; empty where nothing comes."""
        return "".join(f"{at} {what}\n" for at, what in self.rows)

    @classmethod
    def parse(cls, text: str) -> Schedule:
        """The schedule of a text; Damaged where it is none."""
        lines, rows = Lines(text, last_may_lack_lf=True), []
        last = 0
        while lines:
            found = lines.take(ROW, "event of a schedule")
            last = rising(lines, last, int(found[1]), "the cycle", equal=True)
            rows.append((last, found[0].partition(" ")[2]))
        if len(rows) > MOST:
            raise Damaged(f"more than {MOST} events")
        return cls(tuple(rows))

    @classmethod
    def load(cls, path: str | os.PathLike[str]) -> Schedule:
        """The schedule of a file."""
        return load(path, cls.parse)
