#!/usr/bin/env python3
"""Random texts that `sancus check` accepts, or `sancus balance` with certificates of their branches on secrets: by
`sancus lone` two data give the same registers in the same cycles, and by `sancus image` two images that differ in the
module's data alone give the same trace on a random schedule.

    python3 validate/flow.py PROGRAM [TEXTS] [SEED]

PROGRAM is the built `sancus` (crates/sm_main/out/sm_main). Texts are drawn until TEXTS (1000) are accepted. Needs
Python 3 alone.
"""
import random
import sys
import tempfile

import machine
from sancus.command import start

TEXT, DATA, DATA_END, OUTSIDE, HANDLER, STACK = 0x0300, 0x0400, 0x0420, 0x0214, 0x0500, 0x0600
VECTOR_OF_LINE_0 = 0xFFE2
NOP, JMP = 0x4303, 0x3C00
LIMIT, CYCLES = 2000, 600

# SP, line 0's interrupt, GIE, a jump to the module; where the module goes back, a jump to that jump; a handler that returns.
CODE = {
    0x0200: [0x4031, STACK, 0x43D2, 0x0040, 0xD232, 0x4030, TEXT],
    OUTSIDE: [0x4030, 0x020A],
    HANDLER: [0x1300],
    VECTOR_OF_LINE_0: [HANDLER],
    machine.RESET_VECTOR: [0x0200],
}


def register(rng):
    return rng.randrange(4, 16)


def data_word(rng):
    return rng.randrange(DATA, DATA_END, 2)


def two(op, source, byte, mode, register_to, absolute=False):
    return op << 12 | source << 8 | (0x0080 if absolute else 0) | byte << 6 | mode << 4 | register_to


def instruction(rng):
    """The words of one instruction: between registers, of a constant, of an immediate word, of a data word, to a data word, of format II, a jump."""
    op, byte = rng.randrange(4, 16), rng.randrange(2)
    kind = rng.randrange(10)
    if kind < 3:
        return [two(op, register(rng), byte, 0, register(rng))]
    if kind == 3:
        return [two(op, 3, byte, rng.randrange(4), register(rng))]
    if kind == 4:
        return [two(op, 0, byte, 3, register(rng)), rng.randrange(65536)]
    if kind == 5:
        return [two(op, 2, byte, 1, register(rng)), data_word(rng)]
    if kind == 6:
        return [two(rng.choice([4, op]), register(rng), byte, 0, 2, absolute=True), data_word(rng)]
    if kind == 7:
        return [0x1000 | rng.choice([0, 2]) << 7 | byte << 6 | register(rng)]
    if kind == 8:
        return [0x1080 | rng.choice([0, 2]) << 7 | register(rng)]
    return [0x2000 | rng.randrange(8) << 10 | (rng.choice([0, 1, 2, 3, 1, 2, -2, -4]) & 0x3FF)]


def branch(rng, start):
    """A jump on a data word whose arms take equal cycles, and its certificate, which now and then says one too few."""
    def some():
        return [two(rng.randrange(4, 16), register(rng), rng.randrange(2), 0, register(rng)) for _ in range(rng.randrange(5))]
    arms = some(), some()
    cycles = max(map(len, arms))
    one, other = (arm + [NOP] * (cycles - len(arm)) for arm in arms)
    words = [two(9, 2, 0, 1, register(rng)), data_word(rng)]
    at = start + 2 * len(words)
    words += [0x2000 | rng.randrange(7) << 10 | len(one) + 1, *one, JMP | len(other) + 1, *other, JMP]
    return words, f"{at:04x} {start + 2 * len(words):04x} {cycles + (2 if rng.randrange(20) else 1)}\n"


def text_of(rng):
    """Some instructions and branches, a few registers and perhaps the flags made known again, a jump back; certificates."""
    words, arms = [], ""
    for _ in range(rng.randint(1, 16)):
        if rng.randrange(8):
            words += instruction(rng)
        else:
            more, certificate = branch(rng, TEXT + 2 * len(words))
            words, arms = words + more, arms + certificate
    for number in rng.sample(range(4, 16), rng.choice([0, 4, 8, 12, 12])):
        words += [two(4, 0, 0, 3, number), rng.randrange(65536)]
    if rng.randrange(4):
        words += [0xC032, 0x0107]
    return words + [0x4030, OUTSIDE], arms


def image_of(words, data):
    memory = bytearray(machine.MEMORY)
    for start, code in [*CODE.items(), (TEXT, words)]:
        memory[start : start + 2 * len(code)] = b"".join(map(machine.word_bytes, code))
    memory[DATA:DATA_END] = data
    return machine.image_text(memory, bytes(16), STACK, [(7, TEXT, TEXT + 2 * len(words), DATA, DATA_END)])


def schedule_of(rng):
    lines, at = [], 0
    for _ in range(rng.randint(0, 12)):
        at += rng.randint(1, 60)
        lines += [f"{at} line 0 up", f"{at + 1} line 0 down"]
        at += 1
    return "\n".join([*lines, ""]) if lines else "-"


def runs_differ(program, folder, rng, words):
    """Which of the two comparisons of one accepted text, if any, shows two data apart, and how its call ends."""
    size = DATA_END - DATA
    images = [image_of(words, rng.randbytes(size)) for _ in range(2)]
    pairs = [f"r{number}={rng.randrange(65536):04x}" for number in range(4, 16)]
    ends = [machine.sancus(program, folder, image, "lone", "IMAGE", "1", str(LIMIT), *pairs) for image in images]
    schedule = schedule_of(rng)
    if schedule != "-":
        text, schedule = schedule, folder + "/schedule.txt"
        with open(schedule, "w", encoding="ascii") as it:
            it.write(text)
    traces = [machine.sancus(program, folder, image, "image", "IMAGE", schedule, str(CYCLES)) for image in images]
    return [told for told in (ends, traces) if told[0] != told[1]], ends[0][0].split(" ")[0]


def main(words):
    program = words[0] if words else machine.BUILT
    wanted = int(words[1]) if len(words) > 1 else 1000
    rng = random.Random(int(words[2]) if len(words) > 2 else 1)
    tried, accepted, certified, wrong, ended = 0, 0, 0, [], {}
    with tempfile.TemporaryDirectory() as folder:
        while accepted < wanted:
            words, arms = text_of(rng)
            tried += 1
            asked = ["check", "IMAGE", "1"]
            if arms:
                asked = ["balance", "IMAGE", "1", folder + "/arms.txt"]
                with open(asked[3], "w", encoding="ascii") as it:
                    it.write(arms)
            out, status, _ = machine.sancus(program, folder, image_of(words, bytes(DATA_END - DATA)), *asked)
            if (out, status) != ("yes\n", 0):
                continue
            accepted, certified = accepted + 1, certified + bool(arms)
            differ, end = runs_differ(program, folder, rng, words)
            ended[end] = ended.get(end, 0) + 1
            wrong += [([f"{word:04x}" for word in words], told) for told in differ]
    for words, told in wrong[:10]:
        print(" ".join(words), told)
    print(f"{tried} texts were drawn, {accepted} accepted, {certified} by certificates; their calls end: {ended}")
    print(f"{2 * accepted} cases, {len(wrong)} differences{', each explained' if not wrong else ''}")
    return 1 if wrong else 0


if __name__ == "__main__":
    start(main, __doc__)
