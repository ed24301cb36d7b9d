"""Rows of runs in SQLite, by what they are of: a call that was cut off goes on where it ended."""
from __future__ import annotations

import os
import sqlite3
from collections.abc import Iterable, Iterator
from typing import NamedTuple

KEY = "program, image, pulse, schedule, bound, observer"


class Of(NamedTuple):
    """What rows have in common: the program's SHA-256, the most cycles of a run, and who observed it."""

    program: str
    bound: int
    observer: str


class Row(NamedTuple):
    """A run: the image's SHA-256 (or the attack's), the pulse, the schedule (or the plan), the trace's SHA-256, and what was
    observed, as JSON."""

    image: str
    pulse: int
    schedule: str
    trace: str
    observed: str


class Store:
    """A file of rows; `:memory:` is none. Each batch is one transaction."""

    def __init__(self, path: str | os.PathLike[str] = ":memory:") -> None:
        self.db = sqlite3.connect(path)
        self.db.execute("PRAGMA journal_mode=WAL")
        self.db.execute(f"""CREATE TABLE IF NOT EXISTS runs (program TEXT, image TEXT, pulse INTEGER, schedule TEXT, bound INTEGER,
                        observer TEXT, trace TEXT NOT NULL, observed TEXT NOT NULL, PRIMARY KEY ({KEY})) WITHOUT ROWID""")

    def has(self, of: Of, image: str, pulse: int, schedule: str) -> bool:
        """Whether this run is done."""
        key = (of.program, image, pulse, schedule, of.bound, of.observer)
        asked = "SELECT 1 FROM runs WHERE program=? AND image=? AND pulse=? AND schedule=? AND bound=? AND observer=?"
        return self.db.execute(asked, key).fetchone() is not None

    def put(self, of: Of, rows: Iterable[Row]) -> None:
        """Keeps the rows of a batch, all or none; a row that is there already stays."""
        with self.db:
            self.db.executemany("INSERT OR IGNORE INTO runs VALUES (?,?,?,?,?,?,?,?)", [
                (of.program, row.image, row.pulse, row.schedule, of.bound, of.observer, row.trace, row.observed) for row in rows])

    def rows(self, of: Of, images: Iterable[str]) -> Iterator[Row]:
        """The rows of some images, in rising pulse."""
        wanted = list(images)
        found = self.db.execute(
            f"""SELECT image, pulse, schedule, trace, observed FROM runs WHERE program=? AND bound=? AND observer=?
            AND image IN ({','.join('?' * len(wanted))}) ORDER BY pulse, schedule, image""", (*of, *wanted))
        return (Row(*row) for row in found)
