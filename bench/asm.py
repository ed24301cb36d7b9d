#!/usr/bin/env python3
"""Times the assembler on sources of a MiB, the most that it takes.

    python3 bench/asm.py PROGRAM [RUNS]

PROGRAM is called as `PROGRAM asm SOURCE`. A line for each source: the least of RUNS (3) in seconds, its lines, and the bytes of its
object.
"""
import itertools
import os
import subprocess
import sys
import tempfile
import time

LIMIT = 1 << 20
LONG = "n" * 56


def in_sections(kind, per_section, lines):
    """These lines by sections of so many."""
    for number, line in enumerate(lines):
        if number % per_section == 0:
            yield f"section s{number // per_section} {kind}"
        yield line


def jumps():
    """The most labels, with 16 jumps to each, in two sections; then other instructions."""
    for section in range(2):
        yield f"section t{section} code"
        for label in range(2048):
            yield f"label at_{section}_{label}"
            yield from itertools.repeat(f"jmp at_{section}_{label}", 15)
    yield from in_sections("code", 10_000, itertools.repeat("mov 0x1234(r4), 0x5678(r5)"))


CASES = {
    "reti": lambda: in_sections("code", 32_767, itertools.repeat("reti")),
    "names": lambda: in_sections("data", 32_767, (f"word n{k:x}" for k in itertools.count())),
    "two names a line": lambda: in_sections("code", 10_922, (f"mov #a{k:x}, &b{k:x}" for k in itertools.count())),
    "long names": lambda: in_sections("data", 32_767, (f"word {LONG}{k:08x}" for k in itertools.count())),
    "one name": lambda: in_sections("data", 32_767, itertools.repeat("word name")),
    "global": lambda: (f"global {LONG}{k:08x}" for k in itertools.count()),
    "jumps": jumps,
}


def source(lines):
    """As many of the lines as a source has room for."""
    kept, size = [], 0
    for line in lines:
        size += len(line) + 1
        if size > LIMIT:
            return kept
        kept.append(line)
    return kept


def timed(program, path, out):
    start = time.monotonic()
    with open(out, "wb") as it:
        subprocess.run([program, "asm", path], stdout=it, check=True)
    return time.monotonic() - start


def main(program="crates/sm_main/out/sm_main", runs=3):
    with tempfile.TemporaryDirectory() as folder:
        path, out = os.path.join(folder, "case.s"), os.path.join(folder, "case.o")
        for name, lines in CASES.items():
            kept = source(lines())
            with open(path, "w", encoding="ascii") as it:
                it.write("\n".join([*kept, ""]))
            least = min(timed(program, path, out) for _ in range(int(runs)))
            print(f"{name}: {least:.3f} s, {len(kept)} lines, {os.path.getsize(out)} bytes")


if __name__ == "__main__":
    main(*sys.argv[1:])
