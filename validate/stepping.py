#!/usr/bin/env python3
"""The registers after each instruction by `sancus-lab steps`, against mspdebug's simulator, on the C programs of programs/.

    python3 validate/stepping.py SANCUS SANCUS_LAB [STEPS]

SANCUS and SANCUS_LAB are the built programs. Needs Debian's clang, lld and mspdebug. The first STEPS (1000) instructions of each program at
each level are compared, registers 0 to 15 after each.
"""
import itertools
import re
import sys
import tempfile

import linking
import machine
import programs
from sancus.command import Usage, start
from sancus.steps import Steps

SR_BITS = 0x1FF


def ours(lab, image, steps):
    """All registers after each instruction, as the lines tell them."""
    told, _, err = machine.run([lab, "steps", image, "-", str(6 * steps)])
    regs, found = [0] * 16, []
    for step in itertools.islice(Steps(told) if told else (), steps):
        regs = list(regs)
        regs[0] = step.pc + 2 * len(step.words) & 0xFFFF
        for number, value in step.changed.items():
            regs[number] = value
        found.append(regs)
    if len(found) < steps:
        sys.exit(err or "too few instructions")
    return found


def set_registers(regs):
    return [f"set {n} {value:#x}" for n, value in enumerate(regs)]


def theirs(memory, steps):
    """All registers after each instruction."""
    rows = [f"mw {at:#x} " + " ".join(f"{byte:#04x}" for byte in memory[at : at + 64]) for at in range(0x200, 0x10000, 64) if any(memory[at : at + 64])]
    asked = ["fill 0x200 0xfe00 0", *rows, *set_registers([0] * 16), "reset", *["step"] * steps, ""]
    out, _, _ = machine.run(["mspdebug", "-q", "sim"], text="\n".join(asked))
    found = []
    for part in out.split("(mspdebug) step")[1:]:
        regs = [int(it, 16) & 0xFFFF for it in re.findall(r"\(\s*(?:PC|SP|SR|R\d+): ([0-9a-f]+)\)", part)[:16]]
        found.append([regs[4 * (n % 4) + n // 4] for n in range(16)])
    return found


def kept(regs):
    """Registers in the bits that they have here: R3 is a constant generator, and SR ends at bit 8."""
    return [*regs[:2], regs[2] & SR_BITS, 0, *regs[4:]]


def first_difference(mine, other):
    """The number of the first instruction after which registers differ, if there is one."""
    for at, (regs, others) in enumerate(zip(mine, other)):
        if regs != kept(others):
            return at, regs, others
    return None if len(mine) == len(other) else (len(other), [], [])


def main(words):
    if len(words) < 2:
        raise Usage
    sancus, lab = words[:2]
    steps, cases, wrong = int(words[2]) if len(words) > 2 else 1000, 0, []
    with tempfile.TemporaryDirectory() as folder:
        layout = programs.write(folder, "layout.toml", linking.LAYOUT)
        for name in programs.PROGRAMS:
            for level in programs.LEVELS:
                text = machine.run([sancus, "link", layout, *programs.build(folder, name, level)])[0]
                image = programs.write(folder, "linked.img", text)
                found = first_difference(ours(lab, image, steps), theirs(linking.linked_memory(text), steps))
                cases += steps
                if found:
                    wrong.append((name, level, *found))
    for it in wrong:
        print(*it)
    print(f"{cases} instructions, {len(wrong)} programs differ")
    return 1 if wrong else 0


if __name__ == "__main__":
    start(main, __doc__)
