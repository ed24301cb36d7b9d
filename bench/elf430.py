"""Writes ELF32 objects for the MSP430, and reads nothing of the crates."""
import struct

NULL, PROGBITS, SYMTAB, STRTAB, RELA, NOBITS = 0, 1, 2, 3, 4, 8
WRITE, ALLOC, EXEC = 1, 2, 4
LOCAL, GLOBAL, WEAK = 0, 1, 2
UNDEF, ABS, COMMON = 0, 0xFFF1, 0xFFF2


class Object:
    """Sections and symbols are numbered from 1, local symbols first. `marks` names offsets in the file."""

    def __init__(self):
        self.sections, self.symbols, self.relas, self.marks = [], [], {}, {}
        self.suffixes = []

    def section(self, name, flags=ALLOC | EXEC, data=b"", align=2, kind=PROGBITS, size=None):
        self.sections.append((name, kind, flags, align, data, len(data) if size is None else size))
        return len(self.sections)

    def symbol(self, name, home, value=0, size=0, binding=GLOBAL):
        self.symbols.append((name, home, value, size, binding))
        return len(self.symbols)

    def rela(self, target, offset, symbol, kind=5, addend=0):
        self.relas.setdefault(target, []).append((offset, symbol, kind, addend))

    def write_with_suffixes(self, symbol, count, step):
        """The object with `count` copies of a symbol whose names are the suffixes of its name, each `step` shorter."""
        name, home, value, size, binding = self.symbols[symbol - 1]
        self.suffixes = [(k * step, home, value, size, binding) for k in range(1, count)]
        return self.write()

    def write(self, tables=1):
        """The file. With `tables` each table of relocations has so many headers."""
        names, strings, offsets = bytearray(b"\0"), bytearray(b"\0"), {}

        def intern(table, seen, name):
            if name not in seen:
                seen[name] = len(table)
                table.extend(name.encode() + b"\0")
            return seen[name]

        heads, body, seen_s = [], bytearray(), {"": 0}
        at = lambda: 52 + len(body)
        table = [(n, k, f, a, d, s, 0, 0, 0) for n, k, f, a, d, s in self.sections]
        count = 1 + len(table) + tables * len(self.relas)
        symtab, strtab, shstrtab = count, count + 1, count + 2
        symbols = struct.pack("<IIIBBH", 0, 0, 0, 0, 0, 0)
        for name, home, value, size, binding in self.symbols:
            symbols += struct.pack("<IIIBBH", intern(strings, seen_s, name), value, size, binding * 16, 0, home)
        for offset, home, value, size, binding in self.suffixes:
            symbols += struct.pack("<IIIBBH", 1 + offset, value, size, binding * 16, 0, home)
        for target, entries in self.relas.items():
            data = b"".join(struct.pack("<IIi", o, s * 256 + k, a) for o, s, k, a in entries)
            table.append((".rela" + self.sections[target - 1][0], RELA, 0, 4, data, len(data), symtab, target, 12))
            table.extend([(*table[-1][:4], b"", len(data), symtab, target, 12)] * (tables - 1))
        first_global = 1 + sum(binding == LOCAL for *_, binding in self.symbols)
        table.append((".symtab", SYMTAB, 0, 4, symbols, len(symbols), strtab, first_global, 16))
        table.append((".strtab", STRTAB, 0, 1, bytes(strings), len(strings), 0, 0, 0))
        seen_n = {"": 0}
        for row in table:
            intern(names, seen_n, row[0])
        intern(names, seen_n, ".shstrtab")
        table.append((".shstrtab", STRTAB, 0, 1, bytes(names), len(names), 0, 0, 0))
        heads.append(struct.pack("<10I", *[0] * 10))
        for name, kind, flags, align, data, size, link, info, entry in table:
            start = at()
            if kind == RELA and not data:
                start = self.marks[name]
            self.marks[name] = start
            body += data
            heads.append(struct.pack("<10I", seen_n[name], kind, flags, 0, start, size, link, info, align, entry))
        while len(body) % 4:
            body += b"\0"
        table_at = at()
        self.marks["headers"] = table_at
        self.names, self.strings = seen_n, seen_s
        header = struct.pack("<4s12BHHIIIIIHHHHHH", b"\x7fELF", 1, 1, 1, *[0] * 9, 1, 105, 1, 0, 0, table_at, 0, 52, 0, 0, 40, len(heads), shstrtab)
        return header + bytes(body) + b"".join(heads)
