#!/usr/bin/env python3
"""Random texts that `sancus-lab released` accepts under random terms: by `sancus lone` two data that agree on the public
words give the same ends but for the answers, and by `sancus-lab steps` two images run alike on a random schedule until
a call ends with another answer.

    python3 validate/released.py PROGRAM LAB [TEXTS] [SEED]

Texts are drawn until TEXTS (1000) are accepted. Of each, ten pairs of data are called alone, each with other registers,
and one pair is run. Needs Python 3 alone.
"""
import os
import random
import sys
import tempfile

import flow
import machine
from sancus.command import Usage, start
from sancus.steps import Steps
from sancus.trace import Close, Leave

REGISTERS = [1, 2, *range(4, 16)]
CALLS = 10


def terms_of(rng):
    """Registers that may be answers, and words of the data that are public."""
    answers = sorted(rng.sample(REGISTERS, rng.choice([1, 4, 10, 14])))
    public = [at for at in range(flow.DATA, flow.DATA_END, 2) if rng.randrange(3) == 0]
    return answers, public


def text_of(answers, public):
    return "".join([f"answer r{number}\n" for number in answers] + [f"public {at:04x}\n" for at in public])


def data_pair(rng, public):
    """Two data that agree on the public words."""
    one, other = (bytearray(rng.randbytes(flow.DATA_END - flow.DATA)) for _ in range(2))
    for at in public:
        place = at - flow.DATA
        other[place : place + 2] = one[place : place + 2]
    return one, other


def but(answers, end):
    """How a call ends, with the registers that are no answers."""
    words = end.split()
    if words[0] in ("exit", "closed"):
        return words[:2] + [word for number, word in enumerate(words[2:]) if number not in answers]
    return words


def ends_of(text):
    """The events before each end of a call of module 1, its event with the registers before it; and all events."""
    steps, core, ends = Steps(text), [0] * 16, []
    changes = sorted([(step.cycle, 1, step) for step in steps] + [(cycle, 0, changed) for cycle, changed in steps.arrivals.items()],
                     key=lambda one: one[:2])
    for at, event in enumerate(steps.trace.events):
        while changes and changes[0][0] < event.cycle:
            _, is_step, one = changes.pop(0)
            if is_step:
                core[0] = one.pc + 2 * len(one.words)
            for number, word in (one.changed if is_step else one).items():
                core[number] = word
        if isinstance(event, (Leave, Close)) and event.module == 1:
            ends.append((steps.trace.events[:at], event, list(core)))
    return ends, steps.trace.events


def runs_differ(one, other, answers):
    """Whether two runs are told apart before a call ends with another answer, or that end is another but for the answers."""
    (ends, lines), (ends_2, lines_2) = ends_of(one), ends_of(other)
    for (before, line, core), (before_2, line_2, core_2) in zip(ends, ends_2):
        if (before, line) != (before_2, line_2):
            return True
        if core != core_2:
            return any(core[number] != core_2[number] for number in range(16) if number not in answers)
    return lines != lines_2


def calls_differ(program, folder, words, answers, public, rng):
    """The ends of two calls on data that agree on the public words, where they differ but for the answers: a list of at most one pair."""
    images = [flow.image_of(words, data) for data in data_pair(rng, public)]
    pairs = [f"r{number}={rng.randrange(65536):04x}" for number in range(4, 16)]
    calls = [machine.sancus(program, folder, image, "lone", "IMAGE", "1", str(flow.LIMIT), *pairs)[0] for image in images]
    return [(words, answers, public, calls)] if but(answers, calls[0]) != but(answers, calls[1]) else []


def main(words):
    if len(words) < 2:
        raise Usage
    program, lab = words[0], words[1]
    wanted = int(words[2]) if len(words) > 2 else 1000
    rng = random.Random(int(words[3]) if len(words) > 3 else 1)
    tried, accepted, refused_before, wrong, cut = 0, 0, 0, [], 0
    with tempfile.TemporaryDirectory() as folder:
        arms_path, terms_path, schedule_path = (os.path.join(folder, name) for name in ("arms", "terms", "schedule"))
        while accepted < wanted:
            words, arms = flow.text_of(rng)
            answers, public = terms_of(rng)
            tried += 1
            for path, text in (arms_path, arms), (terms_path, text_of(answers, public)):
                with open(path, "w", encoding="ascii") as it:
                    it.write(text)
            plain = flow.image_of(words, bytes(flow.DATA_END - flow.DATA))
            if machine.sancus(lab, folder, plain, "released", "IMAGE", "1", terms_path, arms_path)[:2] != ("yes\n", 0):
                continue
            accepted += 1
            refused_before += machine.sancus(program, folder, plain, "balance", "IMAGE", "1", arms_path)[1] != 0
            for _ in range(CALLS):
                wrong += calls_differ(program, folder, words, answers, public, rng)
            images = [flow.image_of(words, data) for data in data_pair(rng, public)]
            schedule = flow.schedule_of(rng)
            if schedule != "-":
                with open(schedule_path, "w", encoding="ascii") as it:
                    it.write(schedule)
                schedule = schedule_path
            runs = [machine.sancus(lab, folder, image, "steps", "IMAGE", schedule, str(flow.CYCLES))[0] for image in images]
            cut += [end[2] for end in ends_of(runs[0])[0]] != [end[2] for end in ends_of(runs[1])[0]]
            if runs_differ(*runs, answers):
                wrong.append((words, answers, public, schedule))
    for found in wrong[:10]:
        print(*found)
    print(f"{tried} texts were drawn, {accepted} accepted, {refused_before} of them by terms alone; {cut} pairs of runs were cut by an answer")
    print(f"{CALLS * accepted} pairs of calls and {accepted} of runs: {(CALLS + 1) * accepted} cases, {len(wrong)} differences{', each explained' if not wrong else ''}")
    return 1 if wrong else 0


if __name__ == "__main__":
    start(main, __doc__)
