#!/usr/bin/env python3
"""Random instructions by `sancus monitor`, against mspdebug's simulator: registers, memory, flags and cycles, an instruction at a time.

    python3 validate/effects.py PROGRAM [CASES [SEED]]

PROGRAM is the built `sancus` (crates/sm_main/out/sm_main). Needs Debian's mspdebug. A case is an instruction of the code table with
random registers, flags and operands; half of the operands name a register from R0 to R3. An image leads to it by a prologue that sets
the registers; all else is zeros, which are no instruction, so the machine stops where it ends. A script of the monitor shows registers
and memory. What differs is counted under its cause.
"""
import collections
import os
import random
import re
import sys
import tempfile

import machine
from sancus.command import start

PROLOGUE, TEST = 0x0200, 0x8000
RESERVED = [range(0x0000, 0x0280), range(TEST - 0x20, TEST + 0x40), range(0xFF00, 0x10000)]
TWO = "mov add addc subc sub cmp dadd bit bic bis xor and".split()
ONE = ["rrc", "swpb", "rra", "sxt", "push", "call"]
CPU_OFF = 0x10
# mspdebug takes a time that grows with the square of what one run is asked.
TOGETHER = 250
DADD = 10
V = 0x100


def decimal(rng):
    """A number of four decimal digits."""
    return int(f"{rng.randrange(10000):04d}", 16)


def register(rng):
    """A register's number: in half of the cases one that is special."""
    return rng.randrange(4) if rng.random() < 0.5 else rng.randrange(16)


def is_free(addr):
    return not any(addr in place or addr + 1 in place for place in RESERVED)


class Case:
    """An instruction with the state that it begins in."""

    def __init__(self, rng):
        self.regs = [0] * 16
        for n in range(4, 16):
            self.regs[n] = rng.choice([rng.randrange(65536), rng.randrange(0x0280, 0x7F00), rng.choice([0, 1, 0x7FFF, 0x8000, 0xFFFF, 0x80, 0x7F])])
        self.regs[1] = rng.randrange(0x1000, 0x7000) & ~1
        self.regs[2] = rng.randrange(512) & ~CPU_OFF
        self.words = self.instruction(rng)
        # half of the decimal additions are of decimal numbers
        self.decimal = self.words[0] >> 12 == DADD and rng.random() < 0.5
        if self.decimal:
            self.regs[4:] = [decimal(rng) for _ in range(12)]
            self.regs[1] = decimal(rng) & 0x7FFE
            self.words[1:] = [decimal(rng) for _ in self.words[1:]]
        self.regs[0] = TEST
        self.data = {}

    def instruction(self, rng):
        kind = rng.random()
        extension = lambda: rng.choice([rng.randrange(65536), rng.randrange(0x0280, 0x7F00), rng.randrange(64)])
        if kind < 0.1:
            return [0x2000 | rng.randrange(0x2000)]
        if kind < 0.3:
            first = 0x1000 | rng.randrange(6) << 7 | rng.randrange(8) << 4 | register(rng)
            return [first, extension(), extension()]
        if kind < 0.32:
            return [0x1300]
        return [rng.randrange(4, 16) << 12 | register(rng) << 8 | rng.randrange(16) << 4 | register(rng), extension(), extension()]


def mode(register, how):
    """The kind of an operand, and whether it has an extension word."""
    if register == 3 or (register == 2 and how > 1):
        return "constant"
    return ["register", "indexed", "indirect", "increment"][how] if register or how < 2 else ["", "", "outside", "immediate"][how]


def shape(case):
    """Name, byte form, operands as (mode, register, extension word's place), and the number of words; None outside the table."""
    first, byte = case.words[0], bool(case.words[0] & 0x40)
    if first >= 0x4000:
        source, target = mode(first >> 8 & 15, first >> 4 & 3), first >> 7 & 1
        if source == "outside" or (target and first & 15 == 3):
            return None
        long = source in ("indexed", "immediate")
        operands = [(source, first >> 8 & 15, 1), ("indexed" if target else "register", first & 15, 1 + long)]
        return TWO[(first >> 12) - 4], byte, operands, 1 + long + target
    if first < 0x1300:
        name, source = ONE[first >> 7 & 7], mode(first & 15, first >> 4 & 3)
        if source == "outside" or (byte and name in ("swpb", "sxt", "call")):
            return None
        if name not in ("push", "call") and source in ("constant", "immediate"):
            return None
        return name, byte, [(source, first & 15, 1)], 1 + (source in ("indexed", "immediate"))
    return ("reti" if first == 0x1300 else "jump"), False, [], 1


def places(case, name, byte, operands):
    """The addresses that the instruction may touch; None where one is odd for a word, or not free."""
    regs, found = list(case.regs), []
    for how, register, at in operands:
        if how == "indexed":
            base = TEST + 2 * at if register == 0 else 0 if register == 2 else regs[register]
            found.append((base + case.words[at]) & 0xFFFF)
        elif how in ("indirect", "increment"):
            found.append(regs[register])
        if how == "increment" and register != 1:
            regs[register] = regs[register] + (1 if byte else 2) & 0xFFFF
        elif how == "increment":
            regs[1] += 2
    if name in ("push", "call"):
        found.append(regs[1] - 2)
    if name == "reti":
        found += [regs[1], regs[1] + 2]
    aligned = byte or not any(addr & 1 for addr in found)
    return found if aligned and all(map(is_free, found)) else None


def prologue(case):
    code = []
    for n in [1, *range(4, 16)]:
        code += [0x4030 | n, case.regs[n]]
    return [*code, 0x4032, case.regs[2], 0x4030, TEST]


PROLOGUE_CYCLES = 13 * 2 + 2 + 3


def memory_of(case):
    memory = bytearray(machine.MEMORY)
    put = lambda at, words: [memory.__setitem__(slice(at + 2 * k, at + 2 * k + 2), machine.word_bytes(word)) for k, word in enumerate(words)]
    put(PROLOGUE, prologue(case))
    put(TEST, case.words)
    put(machine.RESET_VECTOR, [PROLOGUE])
    for addr, value in case.data.items():
        memory[addr] = value
    return memory


def ours(program, folder, case, watched):
    """Registers after the instruction, the watched words, and its cycles: None where no stop tells its end."""
    script = [f"go {PROLOGUE_CYCLES + 1}", "regs", *(f"mem {addr & ~1:04x} 2" for addr in watched), "go 200", ""]
    with open(os.path.join(folder, "script.txt"), "w", encoding="ascii") as it:
        it.write("\n".join(script))
    out, _, err = machine.sancus(program, folder, machine.image_text(memory_of(case)), "monitor", "IMAGE", "-", it.name)
    found = re.search(r"^regs \d+ outside((?: [0-9a-f]{4}){16})$", out, re.M)
    if not found:
        return err or out, None, None
    regs = [int(it, 16) for it in found[1].split()]
    words = [int(low, 16) | int(high, 16) << 8 for low, high in re.findall(r"^[0-9a-f]{4}: ([0-9a-f]{2})([0-9a-f]{2})$", out, re.M)]
    stop = re.search(r"^(\d+) stop [A-Za-z]+ pc ([0-9a-f]{4})", out, re.M)
    ends = stop and int(stop[2], 16) == regs[0]
    return regs, words, int(stop[1]) - PROLOGUE_CYCLES if ends else None


def commands(case, watched):
    """What mspdebug is asked: it looks at no byte but those that are written first."""
    rows = [f"mw {addr:#x} {value:#04x}" for addr, value in case.data.items()]
    rows.append(f"mw {TEST:#x} " + " ".join(f"{byte:#04x}" for word in case.words for byte in machine.word_bytes(word)))
    rows += [f"set {n} {value:#x}" for n, value in enumerate(case.regs)]
    rows += ["simio info t", "step", "simio info t", *(f"md {addr & ~1:#x} 2" for addr in watched)]
    return rows


def theirs(cases):
    """The same of each case, by one run of the simulator."""
    rows = ["simio add tracer t"]
    for case, watched in cases:
        rows += ["=0", *commands(case, watched)]
    out, _, _ = machine.run(["mspdebug", "-q", "sim"], text="\n".join([*rows, ""]))
    results = []
    for part in out.split("(mspdebug) =0")[1:]:
        blocks = part.split("(mspdebug) ")
        after = next(it for it in blocks if it.startswith("step"))
        regs = [int(it, 16) & 0xFFFF for it in re.findall(r"\(\s*(?:PC|SP|SR|R\d+): ([0-9a-f]+)\)", after)]
        regs = [regs[4 * (n % 4) + n // 4] for n in range(16)]
        clock = [int(it) for it in re.findall(r"MCLK:\s+(\d+)", part)]
        words = [int(low, 16) | int(high, 16) << 8 for it in blocks if it.startswith("md") for low, high in re.findall(r"[0-9a-f]{5}: ([0-9a-f]{2}) ([0-9a-f]{2})", it)]
        results.append((regs, words, clock[-1] - clock[0]))
    return results


def is_decimal(number):
    return all(number >> at & 15 < 10 for at in (0, 4, 8, 12))


def decimal_operands(case, operands):
    """The numbers that stand in registers; those in memory are decimal where the case is."""
    return [case.regs[register] for how, register, _ in operands if how == "register"] + [65535 for how, *_ in operands if how == "constant"]


def steps_stack_by_byte(case, byte, operands):
    """Whether a byte instruction steps SP past its operand."""
    return byte and any(how == "increment" and register == 1 for how, register, _ in operands)


def even_pointers(regs, step):
    """Registers as they would be with PC and SP kept even, and SP stepped by this much more."""
    return [regs[0] & ~1, regs[1] + step & 0xFFFE, regs[2] & 0x1FF, 0, *regs[4:]]


def cause(case, name, byte, operands, what, mine, other):
    """The known causes, each with the side that follows the standard."""
    if what == "cycles" and any(how == "constant" for how, *_ in operands):
        return "cycles: mspdebug counts a constant of the generator by its mode, as an access; SLAU049, 3.2.4: it needs none"
    if what == "memory" and name == "push" and byte:
        return "PUSH.B writes one byte here, a word with 0 above in mspdebug: a choice (docs/DECISIONS.md)"
    if name == "dadd" and not (case.decimal and all(is_decimal(it) for it in decimal_operands(case, operands))):
        return "DADD of digits above 9: the User's Guide defines the sum of decimal numbers alone"
    if name == "dadd" and what == "registers" and [*mine[:2], mine[2] | V, *mine[3:]] == [*even_pointers(other, 0)[:2], other[2] & 0x1FF | V, *even_pointers(other, 0)[3:]]:
        return "DADD: V is undefined by the User's Guide; 0 here, kept by mspdebug: a choice (docs/DECISIONS.md)"
    if steps_stack_by_byte(case, byte, operands) and (operands[-1][1] == 1 or what == "registers" and mine == even_pointers(other, 1)):
        return "@SP+ in a byte instruction: SP rises by 2 here, by 1 in mspdebug; SLAU049, 3.2.2: SP stays even"
    if len(operands) == 2 and operands[0][:2] == ("register", 0) and operands[1][0] == "indexed":
        return "PC as a source with a destination in memory is the address of the next instruction here: a choice (docs/DECISIONS.md)"
    return None


KEPT = [
    (0, 0xFFFE, "PC: bit 0 is always 0 (SLAU049, 3.2.1); mspdebug keeps what was written"),
    (1, 0xFFFE, "SP: bit 0 is always 0 (SLAU049, 3.2.2); mspdebug keeps what was written"),
    (2, 0x01FF, "SR: the bits above 8 are reserved (SLAU049, 3.2.3), and not kept here; mspdebug keeps them"),
    (3, 0x0000, "R3 is a constant generator (SLAU049, 3.2.4), and reads as 0 here; mspdebug keeps what was written"),
]


def kept_causes(mine, other):
    """Where registers differ in bits alone that they do not have here, which ones."""
    masked, found = list(other), []
    for number, bits, why in KEPT:
        if other[number] & ~bits:
            found.append(why)
            masked[number] &= bits
    return found if masked == mine else []


def causes(case, form, what, mine, other):
    """All causes of a difference."""
    name, byte, operands, _ = form
    shown = " ".join(f"{how}{register if register < 4 else ''}" for how, register, _ in operands)
    one = cause(case, name, byte, operands, what, mine, other)
    kept = kept_causes(mine, other) if what == "registers" else []
    return [one] if one else kept or [f"NOT EXPLAINED: {what} of {name}{'.b' if byte else ''} {shown}"]


def main(words):
    program = words[0] if words else machine.BUILT
    count = int(words[1]) if len(words) > 1 else 2000
    rng = random.Random(int(words[2]) if len(words) > 2 else 1)
    cases = []
    while len(cases) < count:
        case = Case(rng)
        form = shape(case)
        found = form and places(case, *form[:3])
        if found is None:
            continue
        case.words = case.words[: form[3]]
        byte_of = (lambda: decimal(rng) & 0xFF) if case.decimal else (lambda: rng.randrange(256))
        case.data = {at: byte_of() for addr in found for at in (addr & ~1, addr | 1)}
        cases.append((case, form, found[:4]))
    differences, examples = collections.Counter(), {}
    with tempfile.TemporaryDirectory() as folder:
        asked = [(case, watched) for case, _, watched in cases]
        expected = [it for k in range(0, count, TOGETHER) for it in theirs(asked[k : k + TOGETHER])]
        for (case, form, watched), (regs, words, cycles) in zip(cases, expected):
            mine = ours(program, folder, case, watched)
            for what, one, two in (("registers", mine[0], regs), ("memory", mine[1], words), ("cycles", mine[2], cycles)):
                if one is None or one == two:
                    continue
                show = lambda it: [f"{x:04x}" for x in it] if isinstance(it, list) else it
                for why in causes(case, form, what, one, two):
                    differences[why] += 1
                    examples.setdefault(why, f"{show(case.words)} regs {show(case.regs)} at {show(watched)}: {show(one)}, mspdebug {show(two)}")
    for why, number in differences.most_common():
        print(f"{number:6} {why}\n       {examples[why]}")
    unexplained = sum(number for why, number in differences.items() if why.startswith("NOT EXPLAINED"))
    print(f"{len(cases)} cases, {sum(differences.values())} differences, {'each explained' if not unexplained else f'{unexplained} NOT EXPLAINED'}")
    return 1 if unexplained else 0


if __name__ == "__main__":
    start(main, __doc__)
