"""Strict reading of texts in lines: whatever a format does not allow is an error with its line."""
from __future__ import annotations

import os
import re
from collections.abc import Callable, Iterator
from typing import TypeVar

from .errors import Damaged

T = TypeVar("T")
DECIMAL, WORD, NAME = "(0|[1-9][0-9]*)", "([0-9a-f]{4})", "([!-~]*)"
CYCLE = "(0|[1-9][0-9]{0,17})"
ADDRESS = "([0-9a-f]{4}|[1-9a-f][0-9a-f]{4,})"  # the end of a section may be 10000


class Lines:
    """The lines of a text, taken one after another."""

    def __init__(self, text: str, last_may_lack_lf: bool = False) -> None:
        self.rows = text.split("\n")
        self.at = 0
        if self.rows[-1] == "":
            self.rows.pop()
        elif not last_may_lack_lf:
            raise Damaged("the text is cut: its last line has no LF", len(self.rows))

    def __bool__(self) -> bool:
        return self.at < len(self.rows)

    def __iter__(self) -> Iterator[str]:
        while self:
            self.at += 1
            yield self.rows[self.at - 1]

    def error(self, what: str) -> Damaged:
        """The error that the line taken last is at fault."""
        return Damaged(what, self.at)

    def take(self, form: str, what: str) -> re.Match[str]:
        """The next line, which has to be of this form."""
        found = self.try_take(form)
        if found is None:
            self.at += 1
            raise self.error(f"no {what}" + ("" if self.at <= len(self.rows) else ": the text is cut"))
        return found

    def try_take(self, form: str) -> re.Match[str] | None:
        """The next line where it is of this form, or None."""
        found = re.fullmatch(form, self.rows[self.at]) if self else None
        self.at += found is not None
        return found

    def finish(self) -> None:
        """Nothing may follow."""
        if self:
            self.at += 1
            raise self.error("a line behind the last one")


def rising(lines: Lines, last: int, now: int, what: str, equal: bool = False) -> int:
    """`now`, which has to be above the one before it."""
    if now < last or (now == last and not equal):
        raise lines.error(f"{what} does not rise")
    return now


def load(path: str | os.PathLike[str], parse: Callable[[str], T]) -> T:
    """What a file's text parses to; an error names the file. `-` is standard input."""
    with open(0 if path == "-" else path, "rb") as file:
        data = file.read()
    return named(os.fspath(path), lambda: parse(ascii_of(data)))


def ascii_of(data: bytes) -> str:
    """The text of bytes that are ASCII."""
    try:
        return data.decode("ascii")
    except UnicodeDecodeError as error:
        raise Damaged("no text: a byte is no ASCII", 1 + data.count(b"\n", 0, error.start)) from None


def named(file: str, parse: Callable[[], T]) -> T:
    """What is parsed; an error gets the name of the file."""
    try:
        return parse()
    except Damaged as error:
        raise Damaged(error.what, error.line, error.file or file) from None
