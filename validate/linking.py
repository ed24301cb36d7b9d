#!/usr/bin/env python3
"""`sancus link` of layouts without modules, against `ld.lld` with a linker script that says the same: memory against memory.

    python3 validate/linking.py PROGRAM [CASES [SEED]]

PROGRAM is the built `sancus` (crates/sm_main/out/sm_main). Needs Debian's lld. A case is up to four random objects with code, data and
zeros, local, global, weak and common symbols, and relocations of every kind that a field of the MSP430 has.
"""
import os
import random
import re
import struct
import sys
import tempfile

import machine
from sancus.command import start
from sancus.elf import ALLOC, EXECUTABLE, PROGBITS, Elf
from sancus.image import Image

sys.path.insert(0, os.path.join(os.path.dirname(os.path.abspath(__file__)), "..", "bench"))
import elf430  # noqa: E402

TEXT, DATA = (0x0200, 0x6000), (0x6000, 0xF000)
CODE, WRITABLE = elf430.ALLOC | elf430.EXEC, elf430.ALLOC | elf430.WRITE
LONG, JUMP, WORD, RELATIVE, WORD_BYTE, RELATIVE_BYTE, BYTE = 1, 2, 3, 4, 5, 6, 9
SIZES = {LONG: 4, JUMP: 2, WORD: 2, RELATIVE: 2, WORD_BYTE: 2, RELATIVE_BYTE: 2, BYTE: 1}


def objects(rng):
    """Objects whose names all resolve. Returns their bytes."""
    count, names, strong = rng.randint(1, 4), [f"name{k}" for k in range(rng.randint(2, 8))], set()
    built, weak_only = [], set(names)
    for number in range(count):
        it = elf430.Object()
        sections = []
        for k in range(rng.randint(1, 4)):
            size = 2 * rng.randint(4, 60)
            kind = rng.choice(["text", "data", "bss"]) if number or k else "text"
            align = rng.choice([2, 2, 4, 16])
            if kind == "bss":
                place = it.section(f".bss.s{k}", WRITABLE, b"", align, elf430.NOBITS, size)
            else:
                data = bytearray(rng.randbytes(size))
                place = it.section(f".{kind}.s{k}", CODE if kind == "text" else WRITABLE, bytes(data), align)
            sections.append((place, kind, size))
        locals_ = [(it.symbol(f"here{number}_{k}", place, 2 * rng.randrange(size // 2), 0, elf430.LOCAL), kind) for k, (place, kind, size) in enumerate(sections)]
        globals_ = {}
        if number == 0:
            globals_["start"] = it.symbol("start", sections[0][0], 0)
        for name in names:
            place, _, size = rng.choice(sections)
            how = rng.random()
            if name in strong:
                how = rng.choice([0.4, 0.7])
            if how < 0.3:
                globals_[name] = it.symbol(name, place, 2 * rng.randrange(size // 2))
                strong.add(name)
            elif how < 0.5:
                globals_[name] = it.symbol(name, place, 2 * rng.randrange(size // 2), 0, elf430.WEAK)
            elif how < 0.8 or number < count - 1:
                globals_[name] = it.symbol(name, elf430.UNDEF)
            else:
                globals_[name] = it.symbol(name, elf430.ABS, rng.randrange(0x8000))
                strong.add(name)
        built.append((it, sections, locals_, globals_))
        weak_only -= set(globals_)
    for name in names:
        if name not in strong:
            it, sections, _, globals_ = built[0]
            place, _, size = sections[0]
            row = globals_[name] - 1
            it.symbols[row] = (name, place, 0, 0, elf430.GLOBAL)
    for it, sections, locals_, globals_ in built:
        for place, kind, size in sections:
            if kind == "bss":
                continue
            at = 0
            while at + 4 <= size and rng.random() < 0.8:
                relocate(rng, it, place, kind, at, locals_, list(globals_.values()))
                at += 4 * rng.randint(1, 3)
    if rng.random() < 0.5:
        built[-1][0].symbol("shared", elf430.COMMON, rng.choice([2, 4]), 2 * rng.randint(1, 20))
    return [it.write() for it, *_ in built]


def relocate(rng, it, place, kind, at, locals_, globals_):
    how = rng.choice([WORD, WORD_BYTE, RELATIVE, RELATIVE_BYTE, LONG, BYTE, JUMP])
    symbol, addend = rng.choice([*(row[0] for row in locals_), *globals_]), rng.randrange(-64, 64)
    if how == BYTE:
        # the one value that surely fits a byte: the number 0 and an addend
        symbol, addend = 0, rng.randrange(-128, 256)
    if how == JUMP:
        name, home, value, *_ = it.symbols[locals_[[row[0] for row in locals_].index(symbol)][0] - 1] if symbol in [row[0] for row in locals_] else (None,) * 5
        if home != place:
            return
        addend = 2 * rng.randrange(-8, 8)
        data = bytearray(it.sections[place - 1][4])
        data[at : at + 2] = struct.pack("<H", 0x3C00)
        it.sections[place - 1] = (*it.sections[place - 1][:4], bytes(data), it.sections[place - 1][5])
    it.rela(place, at, symbol, how, addend)


LAYOUT = f"""version = 1
key = "{'00' * 16}"
handler_sp = 0
text = [{TEXT[0]:#x}, {TEXT[1]:#x}]
data = [{DATA[0]:#x}, {DATA[1]:#x}]
[vectors]
v15 = "start"
"""

SCRIPT = f"""SECTIONS {{
  .text {TEXT[0]:#x} : {{ *(.text*) }} =0
  .data {DATA[0]:#x} : {{ *(.data*) *(.bss*) *(COMMON) }}
  .vector 0xfffe : {{ SHORT(start) }}
  /DISCARD/ : {{ *(.comment) }}
}}
ENTRY(start)
"""


def linked_memory(text):
    """The memory of an image's text."""
    return Image.parse(text).memory


def elf_memory(data):
    """The memory of an executable's loaded sections."""
    memory, found = bytearray(machine.MEMORY), Elf(data, EXECUTABLE)
    for index, section in enumerate(found.sections):
        if section.flags & ALLOC and section.kind == PROGBITS:
            memory[section.address : section.address + section.size] = found.content(index)
    return bytes(memory)


def main(words):
    program = words[0] if words else machine.BUILT
    count = int(words[1]) if len(words) > 1 else 300
    rng, both_refuse, linked, wrong = random.Random(int(words[2]) if len(words) > 2 else 1), 0, 0, []
    with tempfile.TemporaryDirectory() as folder:
        path = lambda name: os.path.join(folder, name)
        with open(path("layout.toml"), "w", encoding="ascii") as it:
            it.write(LAYOUT)
        with open(path("script.ld"), "w", encoding="ascii") as it:
            it.write(SCRIPT)
        for case in range(count):
            files = []
            for k, data in enumerate(objects(rng)):
                files.append(path(f"{k}.o"))
                with open(files[-1], "wb") as it:
                    it.write(data)
            out, status, err = machine.run([program, "link", path("layout.toml"), *files])
            _, other, said = machine.run(["ld.lld", "-T", path("script.ld"), "-o", path("out"), "--no-check-sections", *files])
            if status and other:
                both_refuse += 1
                continue
            if status or other:
                wrong.append((case, err or "linked", said or "linked"))
                continue
            linked += 1
            with open(path("out"), "rb") as it:
                theirs = elf_memory(it.read())
            mine = linked_memory(out)
            if mine != theirs:
                at = next(k for k in range(machine.MEMORY) if mine[k] != theirs[k])
                wrong.append((case, f"at {at:04x}: {mine[at]:02x}", f"{theirs[at]:02x}"))
    for it in wrong[:10]:
        print(*it)
    print(f"{linked} linked by both, {both_refuse} refused by both")
    print(f"{count} cases, {len(wrong)} differences{'' if wrong else ', each explained'}")
    return 1 if wrong else 0


if __name__ == "__main__":
    start(main, __doc__)
