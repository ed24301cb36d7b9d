"""Maps of `sancus-lab map`: what stands where in an image."""
from __future__ import annotations

import os
from collections.abc import Iterator
from dataclasses import dataclass

from .lines import ADDRESS, DECIMAL, NAME, Lines, load, rising

KINDS = {"global": 0, "weak": 1, "local": 2}


@dataclass(frozen=True, slots=True)
class Sections:
    """A module of the image, by its id: its name, and the addresses of its text and data."""

    name: str
    text: range
    data: range


@dataclass(frozen=True, slots=True)
class Part:
    """A section of an object where it stands; `module` is the id of the module that has it, 0 outside."""

    place: range
    module: int
    object: int
    section: int
    name: str


@dataclass(frozen=True, slots=True)
class Entry:
    """An entry of a module: the number that R6 holds at a call, and the function."""

    address: int
    module: int
    number: int
    name: str


@dataclass(frozen=True, slots=True)
class Symbol:
    """A symbol where it stands; `kind` is local, global or weak."""

    address: int
    module: int
    kind: str
    object: int
    name: str


@dataclass(frozen=True)
class Map:
    """The lines of a map by kind: `map["balance"]` is a symbol, `map.at(0x1054)` the name of an address."""

    modules: dict[int, Sections]
    parts: list[Part]
    commons: list[tuple[range, str]]
    entries: list[Entry]
    vectors: dict[int, tuple[int, str]]
    symbols: list[Symbol]
    text: str

    @classmethod
    def parse(cls, text: str) -> Map:
        """The map of a text; Damaged where it is none, or is cut."""
        lines = Lines(text)
        lines.take("sancus-map 1", "map of version 1")
        made = cls({}, [], [], [], {}, [], text)
        while (m := lines.try_take(f"module {DECIMAL} {NAME} {ADDRESS} {ADDRESS} {ADDRESS} {ADDRESS}")) is not None:
            number = rising(lines, max(made.modules, default=0), int(m[1]), "the id of a module")
            made.modules[number] = Sections(m[2], place(lines, m[3], m[4]), place(lines, m[5], m[6]))
        while (m := lines.try_take(f"part {ADDRESS} {ADDRESS} {DECIMAL} {DECIMAL} {DECIMAL} {NAME}")) is not None:
            part = Part(place(lines, m[1], m[2]), int(m[3]), int(m[4]), int(m[5]), m[6])
            rising(lines, made.parts[-1].place.stop if made.parts else 0, part.place.start, "the address of a part", equal=True)
            made.parts.append(part)
        while (m := lines.try_take(f"common {ADDRESS} {ADDRESS} {NAME}")) is not None:
            made.commons.append((place(lines, m[1], m[2]), m[3]))
        while (m := lines.try_take(f"entry {ADDRESS} {DECIMAL} {DECIMAL} {NAME}")) is not None:
            made.entries.append(Entry(int(m[1], 16), int(m[2]), int(m[3]), m[4]))
        while (m := lines.try_take(f"vector (0|[1-9]|1[0-5]) {ADDRESS} {NAME}")) is not None:
            made.vectors[int(m[1])] = int(m[2], 16), m[3]
        while (m := lines.try_take(f"symbol {ADDRESS} {DECIMAL} (local|global|weak) {DECIMAL} {NAME}")) is not None:
            made.symbols.append(Symbol(int(m[1], 16), int(m[2]), m[3], int(m[4]), m[5]))
        lines.take("end", "line that may stand here in a map")
        lines.finish()
        return made

    @classmethod
    def load(cls, path: str | os.PathLike[str]) -> Map:
        """The map of a file."""
        return load(path, cls.parse)

    def __getitem__(self, name: str) -> Symbol:
        """The symbol of a name, or of MODULE.NAME; KeyError where there is none, or where two stand elsewhere."""
        module, dot, own = name.partition(".")
        found = [s for s in self.symbols if s.name == name]
        if not found and dot:
            found = [s for s in self.symbols if s.name == own and s.module in self.modules and self.modules[s.module].name == module]
        if len({s.address for s in found}) != 1:
            raise KeyError(f"{name}: {len(found)} symbols")
        return found[0]

    def ranges(self) -> Iterator[tuple[range, int]]:
        """The addresses and the module of all that stands somewhere."""
        yield from ((part.place, part.module) for part in self.parts)
        yield from ((common, 0) for common, _ in self.commons)
        for number, module in self.modules.items():
            yield from ((module.text, number), (module.data, number))

    def at(self, address: int) -> str | None:
        """NAME or NAME+OFFSET of an address: the last symbol at or below it in the same part; None where there is none.

        The entry code of a module is `.sm.MODULE.entry`.
        """
        inside = [part.start for part, _ in self.ranges() if address in part]
        low = max(inside, default=address + 1)
        names = [(s.address, -KINDS[s.kind], s.name) for s in self.symbols
                 if low <= s.address <= address and s.name and not s.name.startswith(".L")]
        names += [(m.text.start, -3, f".sm.{m.name}.entry") for m in self.modules.values() if low <= m.text.start <= address]
        if not names:
            return None
        start, _, name = max(names, key=lambda one: one[:2])
        return name if start == address else f"{name}+{address - start}"


def place(lines: Lines, start: str, end: str) -> range:
    """The addresses of a section."""
    found = range(int(start, 16), int(end, 16))
    if found.stop < found.start or found.stop > 0x10000:
        raise lines.error("a section ends before it begins, or past the memory")
    return found
