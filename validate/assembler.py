#!/usr/bin/env python3
"""`sancus asm` against clang's assembler, and of what `sancus dis` lists.

    python3 validate/assembler.py PROGRAM [OBJECT..]

PROGRAM is the built `sancus` (crates/sm_main/out/sm_main). Needs Debian's llvm (llvm-mc with its MSP430 target, llvm-objcopy), lld and binutils. Random
instructions without a jump are assembled by both. Then their code, and the section `.text` of each object, is listed, the listing is
written as a source with labels for the jumps, and that is assembled: the bytes must be the same.
"""
import os
import random
import re
import subprocess
import sys
import tempfile

import machine
from sancus.command import Usage, start

COUNT, PART, START = 8000, 2000, 0x0200
# Of each object that `asm` wrote, whether readelf reads it without a warning and ld.lld takes it.
WRITTEN = []
TWO = "mov add addc subc sub cmp dadd bit bic bis xor and".split()
# One operand: whether there is a byte form, and whether it may be a number.
ONE = {"rrc": (True, False), "swpb": (False, False), "rra": (True, False), "sxt": (False, False), "push": (True, True), "call": (False, True)}
PLAIN = [1, *range(4, 16)]
CONSTANTS = ("0", "1", "2", "4", "8", "-1")


def word(rng):
    return rng.choice((rng.randrange(9, 0xFFFF), 0x1234, 0x8001))


def place(rng):
    """An operand that may be written to, as each of the two writes it."""
    kind, value, register = rng.randrange(3), word(rng), rng.choice(PLAIN)
    if kind == 0:
        return (f"r{register}",) * 2
    if kind == 1:
        return f"{value:#06x}(r{register})", f"{value}(r{register})"
    return f"&{value:#06x}", f"&{value}"


def source(rng):
    kind, value, register = rng.randrange(6), word(rng), rng.choice(PLAIN)
    if kind == 0:
        return (f"#{rng.choice(CONSTANTS)}",) * 2
    if kind == 1:
        return f"#{value:#06x}", f"#{value}"
    if kind == 2:
        return (f"@r{register}",) * 2
    if kind == 3:
        return (f"@r{register}+",) * 2
    return place(rng)


def instruction(rng):
    if rng.random() < 0.7:
        name, (ours, theirs), (left, right) = rng.choice(TWO) + rng.choice(["", ".b"]), source(rng), place(rng)
        return f"{name} {ours}, {left}", f"{name} {theirs}, {right}"
    name = rng.choice(list(ONE))
    byte, number = ONE[name]
    ours, theirs = source(rng)
    # llvm-mc writes the constant of a call as an extension word.
    while ours[0] == "#" and (not number or name == "call" and ours[1:] in CONSTANTS):
        ours, theirs = source(rng)
    name += rng.choice(["", ".b"]) if byte else ""
    return f"{name} {ours}", f"{name} {theirs}"


def assembler_bytes(lines):
    """The bytes of each line by llvm-mc, and None where it refuses the line."""
    def listed(texts):
        return subprocess.run(["llvm-mc", "--triple=msp430", "--show-encoding"], input="\n".join(texts) + "\n", capture_output=True, text=True)

    refused = {int(number) - 1 for number in re.findall(r"^<stdin>:(\d+):\d+: error", listed(lines).stderr, re.M)}
    kept = [k for k in range(len(lines)) if k not in refused]
    found = re.findall(r"encoding: \[([^\]]*)\]", listed([lines[k] for k in kept]).stdout)
    given = dict(zip(kept, (bytes(int(byte, 16) for byte in text.split(",")) for text in found), strict=True))
    return [given.get(k) for k in range(len(lines))]


def text_section(folder, path):
    code = os.path.join(folder, "code.bin")
    subprocess.run(["llvm-objcopy", "-O", "binary", "--only-section=.text", path, code], check=True)
    with open(code, "rb") as it:
        return it.read()


def assembled(program, folder, lines):
    """The code of a source of these lines."""
    source_path, object_path = os.path.join(folder, "case.s"), os.path.join(folder, "case.o")
    with open(source_path, "w", encoding="ascii") as it:
        it.write("\n".join(["section .text code", *lines, ""]))
    with open(object_path, "wb") as it:
        subprocess.run([program, "asm", source_path], stdout=it, check=True)
    read = subprocess.run(["readelf", "-a", object_path], capture_output=True, text=True)
    taken = subprocess.run(["ld.lld", "-r", "-o", os.path.join(folder, "again.o"), object_path], capture_output=True, text=True)
    WRITTEN.append(read.returncode == 0 and "arning" not in read.stdout + read.stderr and taken.returncode == 0 and not taken.stderr)
    return text_section(folder, object_path)


def others(program, folder, cases):
    """The cases whose bytes are not these."""
    if assembled(program, folder, [ours for ours, _ in cases]) == b"".join(code for _, code in cases):
        return []
    if len(cases) == 1:
        return cases
    half = len(cases) // 2
    return others(program, folder, cases[:half]) + others(program, folder, cases[half:])


def listing(program, folder, code):
    """The addresses and instructions of `dis`, and their words."""
    memory = bytearray(machine.MEMORY)
    memory[START : START + len(code)] = code
    out, status, _ = machine.sancus(program, folder, machine.image_text(memory), "dis", "IMAGE", f"{START:04x}", f"{START + len(code):04x}")
    assert status == 0
    lines = out.splitlines()
    places = [int(line[:4], 16) for line in lines] + [START + len(code)]
    return [(at, " ".join(line.split(" ")[1 + (after - at) // 2 :]), code[at - START : after - START]) for at, after, line in zip(places, places[1:], lines)]


def as_source(listed):
    """The listing as a source: labels for jumps, words for what is relative to PC or no instruction."""
    places, jump = {at for at, _, _ in listed}, re.compile(r"(j[a-z]+) 0x([0-9a-f]{4})")
    targets = {int(found[2], 16) for _, text, _ in listed if (found := jump.fullmatch(text))}
    lines, words = [], 0
    for at, text, code in listed:
        lines += [f"label at_{at:04x}"] if at in targets else []
        found = jump.fullmatch(text)
        if found and int(found[2], 16) in places:
            lines.append(f"{found[1]} at_{found[2]}")
        elif re.search(r"(^| )0x[0-9a-f]{4}(,|$)", text) or not re.match(r"[a-z]", text):
            words += 1
            lines += [f"word {code[k + 1]:#04x}{code[k]:02x}" for k in range(0, len(code), 2)]
        else:
            lines.append(text)
    return lines, words


def round_trip(program, folder, name, code):
    listed = listing(program, folder, code)
    lines, words = as_source(listed)
    same = assembled(program, folder, lines) == code
    print(f"{name}: {len(code)} bytes, {len(listed)} instructions, {words} by words: {'the same' if same else 'DIFFERENT'}")
    return same


def main(words):
    if not words:
        raise Usage
    program, *objects = words
    rng = random.Random(1)
    cases = [instruction(rng) for _ in range(COUNT)]
    wanted = assembler_bytes([theirs for _, theirs in cases])
    kept = [(ours, code) for (ours, _), code in zip(cases, wanted) if code is not None]
    parts = [kept[k : k + PART] for k in range(0, len(kept), PART)]
    with tempfile.TemporaryDirectory() as folder:
        other = [case for part in parts for case in others(program, folder, part)]
        print(f"{len(kept)} instructions that llvm-mc takes, of {COUNT}: {len(other)} have other bytes {other[:3]}")
        good = [not other]
        good += [round_trip(program, folder, f"part {k}", b"".join(code for _, code in part)) for k, part in enumerate(parts)]
        good += [round_trip(program, folder, path, text_section(folder, path)) for path in objects]
    wrong = len(other) + good.count(False) - (not good[0]) + WRITTEN.count(False)
    print(f"{len(kept) + len(good) - 1 + len(WRITTEN)} cases, {wrong} differences{'' if wrong else ', each explained'}")
    return 1 if wrong else 0


if __name__ == "__main__":
    start(main, __doc__)
