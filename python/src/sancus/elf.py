"""ELF files for the MSP430: the sections, symbols and relocations of objects, and the memory of executables."""
from __future__ import annotations

import os
import struct
from dataclasses import dataclass
from typing import Any

from .errors import Damaged
from .image import SIZE

PROGBITS, SYMTAB, STRTAB, RELA, NOBITS, REL = 1, 2, 3, 4, 8, 9
ALLOC, EXEC, WRITE = 2, 4, 1
RELOCATABLE, EXECUTABLE, MSP430 = 1, 2, 105


@dataclass(frozen=True, slots=True)
class Section:
    """The header of a section, with its name."""

    name: str
    kind: int
    flags: int
    address: int
    offset: int
    size: int
    link: int
    info: int
    align: int


@dataclass(frozen=True, slots=True)
class ElfSymbol:
    """A symbol; `home` is the index of its section, or a reserved number."""

    name: str
    value: int
    size: int
    info: int
    home: int


@dataclass(frozen=True, slots=True)
class Relocation:
    """A relocation at an offset of its section, by the number of a symbol."""

    offset: int
    symbol: int
    kind: int
    addend: int


class Elf:
    """A 32-bit file, the low byte first; Damaged is raised where what its headers name is not there."""

    def __init__(self, data: bytes, kind: int = RELOCATABLE) -> None:
        self.data = data
        if data[:7] != b"\x7fELF\x01\x01\x01" or self.unpack("<HH", 16) != (kind, MSP430):
            raise Damaged(f"no ELF {'object' if kind == RELOCATABLE else 'executable'} for the MSP430")
        self.sections: list[Section] = []
        table, = self.unpack("<I", 32)
        size, count, names = self.unpack("<HHH", 46)
        heads = [self.unpack("<10I", table + k * size) for k in range(count)]
        for head in heads:
            if head[1] != NOBITS and head[4] + head[5] > len(data):
                raise Damaged("the file is cut: it ends before one of its sections")
        for head in heads:
            name = self.string(heads[names][4:6], head[0]) if names < count else ""
            self.sections.append(Section(name, *head[1:9]))
        self.symbols = [symbol for section in self.sections if section.kind == SYMTAB for symbol in self._symbols(section)]

    @classmethod
    def load(cls, path: str | os.PathLike[str], kind: int = RELOCATABLE) -> Elf:
        """The file at a path; an error names it."""
        with open(path, "rb") as file:
            data = file.read()
        try:
            return cls(data, kind)
        except Damaged as error:
            raise Damaged(error.what, None, os.fspath(path)) from None

    def unpack(self, form: str, at: int) -> tuple[Any, ...]:
        """The fields at an offset of the file."""
        try:
            return struct.unpack_from(form, self.data, at)
        except struct.error:
            raise Damaged(f"the file is cut: nothing is at offset {at}") from None

    def string(self, table: tuple[int, int], at: int) -> str:
        """The name at a place of a table of names, with `?` for what is no visible character."""
        start, size = table
        end = self.data.find(b"\0", start + at, start + size)
        if end < 0:
            raise Damaged("a name leaves its table")
        return "".join(chr(b) if 0x21 <= b <= 0x7E else "?" for b in self.data[start + at:end])

    def _symbols(self, section: Section) -> list[ElfSymbol]:
        if section.link >= len(self.sections):
            raise Damaged("a table of symbols has no names")
        table = self.sections[section.link]
        rows = [self.unpack("<3I2BH", at) for at in range(section.offset, section.offset + section.size - 15, 16)]
        return [ElfSymbol(self.string((table.offset, table.size), name), value, size, info, home)
                for name, value, size, info, _, home in rows]

    def content(self, index: int) -> bytes:
        """The bytes of a section; zeros where it has none in the file."""
        section = self.sections[index]
        if section.kind == NOBITS:
            return bytes(min(section.size, SIZE))
        return self.data[section.offset:section.offset + section.size]

    def relocations(self, index: int) -> dict[tuple[int, int], Relocation]:
        """The relocations of a section, by their table and entry."""
        found = {}
        for table, section in enumerate(self.sections):
            if section.kind in (RELA, REL) and section.info == index:
                step = 12 if section.kind == RELA else 8
                for entry in range(section.size // step):
                    offset, info, *addend = self.unpack("<2Ii" if step == 12 else "<2I", section.offset + entry * step)
                    found[table, entry] = Relocation(offset, info >> 8, info & 255, addend[0] if addend else 0)
        return found

    def memory(self) -> bytes:
        """The 65,536 bytes that the segments of an executable fill."""
        memory = bytearray(SIZE)
        offset, = self.unpack("<I", 28)
        size, count = self.unpack("<HH", 42)
        for k in range(count):
            kind, start, _, address, length = self.unpack("<5I", offset + k * size)
            if kind == 1 and length:
                if start + length > len(self.data) or address + length > SIZE:
                    raise Damaged("a segment leaves the file or the memory")
                memory[address:address + length] = self.data[start:start + length]
        return bytes(memory)
