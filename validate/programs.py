#!/usr/bin/env python3
"""C programs built by clang, linked by `sancus link` and by `ld.lld`, run by `sancus run` and by mspdebug's simulator to one memory.

    python3 validate/programs.py PROGRAM

PROGRAM is the built `sancus` (crates/sm_main/out/sm_main). Needs Debian's clang, lld and mspdebug. Each program of programs/ is linked with
runtime.c and leaves eight words in R4 to R11. Compared are the linked memory, these words, and all of data and stack at the end. What the
words must be is known from elsewhere, for every program.
"""
import os
import re
import sys
import tempfile

import linking
import machine
from sancus.command import start
from sancus.trace import Trace

FOLDER = os.path.join(os.path.dirname(os.path.abspath(__file__)), "programs")
PROGRAMS = ["crc", "fixed", "sha256", "sort"]
LEVELS = ["-O0", "-O1", "-O2", "-Os"]
CYCLES = 20_000_000
PIECE = 256

# A bit for each thing that a program tried and found right, and then:
# of crc, CRC-32 of "The quick brown fox jumps over the lazy dog";
# of fixed, how often points of a grid stay in the set, as exact fractions give it;
# of sha256, the first words of the digest of "abc" (FIPS 180-4); of sort, the least word, the greatest and the middle one.
KNOWN = {
    "crc": [0x3FF, 0x3FF, 0x3FF, 0x3FC, 0x2F2, 0x414F, 0xA339, 7],
    "fixed": [0x1FF, 0xFF, 0xFF, 0xF, 0xFFFF, 1, 3, 0xDA0D],
    "sha256": [0xF, 3, 0xF, 0xBA78, 0x16BF, 0x8F01, 0xCFEA, 0x4141],
    "sort": [0x7FF, 0x0052, 0xFEC6, 0x77EC, 0, 0, 0, 0],
}


def write(folder, name, text):
    path = os.path.join(folder, name)
    with open(path, "w", encoding="ascii") as it:
        it.write(text)
    return path


def build(folder, name, level):
    """The objects of a program."""
    paths = [os.path.join(folder, f"{part}.o") for part in (name, "runtime")]
    for part, path in zip((name, "runtime"), paths):
        source = os.path.join(FOLDER, part + ".c")
        machine.run(["clang", "--target=msp430", level, "-fno-builtin", "-c", source, "-o", path], check=True)
    return paths


def link_theirs(folder, built):
    """The memory that ld.lld links, and the address at which the program ends."""
    path = lambda name: os.path.join(folder, name)
    # without -O0 it merges strings that are equal, which `sancus link` does not
    _, status, err = machine.run(["ld.lld", "-O0", "-T", path("script.ld"), "-o", path("out"), "--no-check-sections", *built])
    if status:
        sys.exit(err)
    with open(path("out"), "rb") as it:
        memory = linking.elf_memory(it.read())
    names = machine.run(["llvm-nm", path("out")])[0].splitlines()
    return memory, next(int(line.split()[0], 16) for line in names if line.endswith(" done"))


def ours(program, folder, built, done):
    """The linked memory, what the program leaves in registers, and its data and stack."""
    layout = os.path.join(folder, "layout.toml")
    image = machine.run([program, "link", layout, *built])[0]
    trace, _, err = machine.run([program, "run", layout, "-", str(CYCLES), *built])
    registers = None if err else Trace(trace).end.registers
    words = list(registers[4:12]) if registers else err or trace
    pieces = [f"mem {at:04x} {PIECE}" for at in range(*linking.DATA, PIECE)]
    script = write(folder, "script.txt", "\n".join([f"until {done:04x} {CYCLES}", *pieces, ""]))
    said, _, err = machine.run([program, "monitor", write(folder, "linked.img", image), "-", script])
    data = bytes.fromhex("".join(re.findall(r"^[0-9a-f]{4}: ([0-9a-f]+)$", said, re.M)))
    return linking.linked_memory(image), words, data


def theirs(memory, done):
    """What the program leaves in registers, and its data and stack."""
    rows = [f"mw {at:#x} " + " ".join(f"{byte:#04x}" for byte in memory[at : at + 64]) for at in range(0x200, 0x10000, 64) if any(memory[at : at + 64])]
    start, end = linking.DATA
    asked = ["reset", f"setbreak {done:#x}", "run", "regs", f"md {start:#x} {end - start:#x}", ""]
    out, _, _ = machine.run(["mspdebug", "-q", "sim"], text="\n".join(["fill 0x200 0xfe00 0", *rows, *asked]))
    regs = [int(it, 16) & 0xFFFF for it in re.findall(r"\(\s*(?:PC|SP|SR|R\d+): ([0-9a-f]+)\)", out)[-16:]]
    data = "".join(re.findall(r"^\s+[0-9a-f]{5}:((?: [0-9a-f]{2})+)", out[out.index("(mspdebug) md") :], re.M))
    return [regs[4 * (n % 4) + n // 4] for n in range(4, 12)], bytes.fromhex(data)


def differences(program, folder, name, level):
    """What differs between the two, and from what is known."""
    built = build(folder, name, level)
    linked, done = link_theirs(folder, built)
    image, words, data = ours(program, folder, built, done)
    other_words, other_data = theirs(linked, done)
    found = []
    if image != linked:
        found.append("linked memory")
    if words != other_words:
        found.append(f"registers {words}, {other_words}")
    if data != other_data or len(data) != linking.DATA[1] - linking.DATA[0]:
        found.append("data or stack")
    if words != KNOWN[name]:
        found.append(f"not what is known: {words}")
    return found


def main(words):
    program, cases, wrong = words[0] if words else machine.BUILT, 0, []
    with tempfile.TemporaryDirectory() as folder:
        write(folder, "layout.toml", linking.LAYOUT)
        write(folder, "script.ld", linking.SCRIPT.replace("*(.text*)", "*(.text* .rodata*)"))
        for name in PROGRAMS:
            for level in LEVELS:
                cases += 1
                found = differences(program, folder, name, level)
                if found:
                    wrong.append((name, level, *found))
    for it in wrong:
        print(*it)
    print(f"{cases} cases, {len(wrong)} differences{'' if wrong else ', each explained'}")
    return 1 if wrong else 0


if __name__ == "__main__":
    start(main, __doc__)
