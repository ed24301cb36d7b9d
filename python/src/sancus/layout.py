"""Layouts: the regions, the vectors and the modules that `link` places objects by."""
from __future__ import annotations

import os
import tomllib
from dataclasses import dataclass
from typing import Any

from .errors import Damaged
from .lines import load

TOP = {"version": int, "key": str, "handler_sp": int, "text": list, "data": list, "vectors": dict, "module": list}
MODULE = {"name": str, "vendor": int, "text": list, "data": list, "stack": int, "entries": list, "boot": int}
MAY_LACK = {"vectors", "module", "boot"}


@dataclass(frozen=True)
class Place:
    """A module of a layout: its regions, its stack in bytes, and its entries, of which the first has the number 0."""

    name: str
    vendor: int
    text: range
    data: range
    stack: int
    entries: tuple[str, ...]
    boot: int | None


@dataclass(frozen=True)
class Layout:
    """A layout; `sancus link` has the last word on what it may say."""

    version: int
    key: bytes
    handler_sp: int
    text: range
    data: range
    vectors: dict[int, str]
    modules: tuple[Place, ...]

    @classmethod
    def parse(cls, text: str) -> Layout:
        """The layout of a TOML text; Damaged where it is none."""
        try:
            table = tomllib.loads(text)
        except tomllib.TOMLDecodeError as error:
            raise Damaged(f"no TOML: {error}") from None
        check(table, TOP, "the layout")
        places = []
        for row in table.get("module", []):
            check(row, MODULE, "a module")
            places.append(Place(row["name"], row["vendor"], region(row["text"]), region(row["data"]), row["stack"],
                                tuple(map(str, row["entries"])), row.get("boot")))
        try:
            key = bytes.fromhex(table["key"])
            vectors = {int(name.removeprefix("v")): str(function) for name, function in table.get("vectors", {}).items()}
        except ValueError as error:
            raise Damaged(f"a key or a vector of another form: {error}") from None
        return cls(table["version"], key, table["handler_sp"], region(table["text"]), region(table["data"]), vectors, tuple(places))

    @classmethod
    def load(cls, path: str | os.PathLike[str]) -> Layout:
        """The layout of a file."""
        return load(path, cls.parse)


def check(table: Any, kinds: dict[str, type], what: str) -> None:
    """Whether a table has the keys that it must have, each of its type, and no other."""
    if not isinstance(table, dict):
        raise Damaged(f"{what} is no table")
    for key in kinds:
        if key not in table and key not in MAY_LACK:
            raise Damaged(f"{what} has no {key}")
    for key, value in table.items():
        if key not in kinds or type(value) is not kinds[key]:
            raise Damaged(f"{key} in {what} is unknown, or of another type")


def region(pair: list[Any]) -> range:
    """The addresses of a region."""
    if len(pair) != 2 or any(type(one) is not int for one in pair) or not 0x0200 <= pair[0] <= pair[1] <= 0xFFE0:
        raise Damaged(f"{pair} is no start and end of a region")
    return range(*pair)
