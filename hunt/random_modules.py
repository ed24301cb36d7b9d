#!/usr/bin/env python3
"""Random modules that `check` or `balance` accepts, called over and over, interrupted at random, with two data each.

    hunt/random_modules.py [--calls N] [--minutes N] [--seed N] [-j N] [--name NAME] [--fresh]

Two modules are drawn for an image: the outside calls the first with an argument from the timer, and the handler of
line 2 calls the second. Interrupts come by three lines and the timer; one handler may be interrupted itself, one
sends its registers. Two images differ in the data of both modules, and their whole traces are compared. It ends when
N calls (1,000,000) of the first module were interrupted, counted from `enter` to `leave` with a `hide` between them
in the first image's trace. With --fresh each call is the first of an image, in a run of its own.
"""
import argparse
import itertools
import os
import platform
import random
import sys
import time

HERE = os.path.dirname(os.path.realpath(__file__))
sys.path.insert(0, os.path.join(HERE, "../python/src"))
from drawn import DATA_WORDS, STACK, Drawn
from sancus.attack import tells_registers
from sancus.command import start, write_new
from sancus.image import SIZE as MEMORY, Image, Module, words as bytes_of
from sancus.pool import on_processes
from sancus.schedule import Schedule
from sancus.terms import Arms
from sancus.trace import Enter, Hide, Leave

TEXTS, DATA, BACKS, HANDLER_SP = (0x0800, 0x0C00), (0x1000, 0x1100), (0x023C, 0x0340), 0x0680
SIZE = 2 * DATA_WORDS + STACK
LOOP, TIMER_HANDLER, LINE_0, LINE_1, LINE_2, SP_KEPT = 0x0216, 0x0300, 0x0310, 0x0320, 0x0330, 0x0700
LONG, SHORT = 100000, 400
# The lines that go up in one cycle and down in the next.
PULSES = [(0,), (1,), (2,), (0, 1), (0, 2)]


def outside(rng):
    """The outside's code: SP, three lines, the timer and GIE; then the calls, with arguments from the timer."""
    call = [0x4031, 0x0600, 0x421C, 0x0162, 0x4C0D, 0x4C0E, 0x108E, 0x531F, 0xD232, 0x4030, TEXTS[0]]
    nops = [0x4303] * rng.randrange(6)
    tells = tells_registers() if rng.randrange(4) == 0 else nops
    return {
        0x0200: [0x4031, 0x0600, 0x40F2, 0x0007, 0x0040, 0x40B2, rng.randint(20, 900), 0x0164, 0x40B2, 0x0003, 0x0160],
        LOOP: call,
        BACKS[0]: [0x4030, LOOP],
        TIMER_HANDLER: [*nops, 0x1300],
        0x0400: [*tells, 0x1300],
        LINE_0: [0x4030, 0x0400],
        LINE_1: [0xD232, *nops, 0x4030, TIMER_HANDLER],
        LINE_2: [0x4182, SP_KEPT, 0x4034, 0x1234, 0x4030, TEXTS[1]],
        BACKS[1]: [0x4211, SP_KEPT, 0x1300],
        0xFFE2: [LINE_0, LINE_1, LINE_2],
        0xFFF0: [TIMER_HANDLER],
        0xFFFE: [0x0200],
    }


def image_of(code, modules, data):
    """An image of the outside and of both modules, with these data."""
    memory = bytearray(MEMORY)
    for at, words in [*code.items(), *((text, one.words) for one, text in zip(modules, TEXTS))]:
        memory[at : at + 2 * len(words)] = bytes_of(words)
    for ram, secret in zip(DATA, data):
        memory[ram : ram + SIZE] = secret
    places = [Module(7, range(text, text + 2 * len(one.words)), range(ram, ram + SIZE)) for one, text, ram in zip(modules, TEXTS, DATA)]
    return Image(handler=HANDLER_SP, modules=tuple(places), memory=bytes(memory))


def schedule_of(rng, cycles):
    """Pulses of one cycle, of three lines, some together; often more than one a call."""
    most = rng.choice([10, 30, 60, 120])
    gaps = rng.choices(range(3, most + 3), k=2 * cycles // most)
    starts = itertools.takewhile(lambda at: at < cycles - 2, itertools.accumulate(gaps))
    return Schedule(tuple((at + n, f"line {number} {way}") for at, pulse in zip(starts, rng.choices(PULSES, k=len(gaps)))
                          for n, way in enumerate(("up", "down")) for number in pulse))


def accepted(modules, image):
    """Whether each module is accepted, by `balance` where it branches on a secret."""
    return all([image.balance(number, Arms(tuple(one.arms))) if one.arms else image.check(number)
                for number, one in enumerate(modules, 1)])


def counted(trace):
    """How many calls of module 1 were interrupted and are over, and how many hides there are."""
    calls = hides = 0
    inside = met = False
    for event in trace:
        match event:
            case Enter(module=1):
                inside, met = True, False
            case Hide(module=module):
                hides, met = hides + 1, met or module == 1
            case Leave(module=1):
                calls, inside = calls + (inside and met), False
    return calls, hides


def tried(seed, number, fresh):
    """One pair of modules: whether they were accepted, runs, calls interrupted, hides, branches on secrets, and
    what differs."""
    rng = random.Random(f"{seed} {number}")
    modules = [Drawn(rng, *place) for place in zip(TEXTS, DATA, BACKS)]
    code = outside(rng)
    images = [image_of(code, modules, [rng.randbytes(SIZE) for _ in modules]) for _ in range(2)]
    if not accepted(modules, images[0]):
        return 0, 0, 0, 0, 0, None
    calls = hides = 0
    rounds, cycles = (50, SHORT) if fresh else (1, LONG)
    for _ in range(rounds):
        schedule = schedule_of(rng, cycles)
        traces = [image.run(schedule, cycles) for image in images]
        if traces[0] != traces[1]:
            return 1, rounds, calls, hides, 0, (number, images, schedule, traces)
        more, met = counted(traces[0])
        calls, hides = calls + (min(more, 1) if fresh else more), hides + met
    return 1, rounds, calls, hides, sum(len(one.arms) for one in modules), None


def options():
    said = argparse.ArgumentParser(description=__doc__.split("\n")[0])
    said.add_argument("--calls", type=int, default=1000000)
    said.add_argument("--minutes", type=float, default=600, help="end after so many minutes at the latest")
    said.add_argument("--seed", type=int, default=1)
    said.add_argument("-j", type=int, default=max(1, (os.cpu_count() or 2) - 1))
    said.add_argument("--name", help="write hunt/results/NAME.txt as well")
    said.add_argument("--fresh", action="store_true", help="each call in a run of its own")
    return said


def hunted(words):
    """The sums over all pairs of modules, the number of pairs drawn, and what differs."""
    sums, differ, begun = [0] * 5, [], time.monotonic()
    tasks = ((words.seed, number, words.fresh) for number in itertools.count())
    for drawn, answer in enumerate(on_processes(tried, tasks, words.j), 1):
        sums = [one + more for one, more in zip(sums, answer)]
        differ += [answer[5]] if answer[5] else []
        seconds = time.monotonic() - begun
        if drawn % 8 == 0:
            said = f"random: {sums[2]} of {words.calls} calls interrupted, {len(differ)} differ, {seconds:.0f} s"
            print(said, file=sys.stderr, flush=True)
        if sums[2] >= words.calls or len(differ) > 9 or seconds > 60 * words.minutes:
            return sums, drawn, differ


def main(words):
    words, begun = options().parse_args(words), time.monotonic()
    sums, drawn, differ = hunted(words)
    pairs, runs, calls, hides, arms = sums
    apart = ", each in a run of its own" if words.fresh else ""
    lines = [
        f"{drawn} images of two modules drawn (seed {words.seed}), {pairs} accepted, {arms} branches on secrets",
        f"{runs} runs with two data each, {calls} calls interrupted{apart}, {hides} hides, {len(differ)} differ",
        f"{time.monotonic() - begun:.0f} s, {words.j} processes on {platform.machine()}, load {os.getloadavg()[0]:.1f}",
    ]
    for number, images, schedule, traces in differ[:3]:
        lines += [f"image {number}:", *(it.text for it in (*images, schedule, *traces))]
    print("\n".join(lines))
    if words.name:
        write_new(os.path.join(HERE, "results", words.name + ".txt"), "\n".join([*lines, ""]).encode())
    return bool(differ)


if __name__ == "__main__":
    start(main, __doc__)
