"""The attacking outside: it calls a module, or plain code, once, and interrupts the call in chosen cycles."""
from __future__ import annotations

import hashlib
from collections.abc import Iterator
from dataclasses import dataclass, replace
from typing import NamedTuple

from .errors import SancusError
from .image import FIRST, RESET, ROW, SIZE, VECTORS, Image, given, words
from .program import call
from .schedule import Schedule
from .trace import Close, Leave, Trace

BEFORE, BEHIND, LIMIT = 2, 8, 100_000
ROOM, STACK_ROOM = 0x240, 0x40
# The cycle in which the timer begins to run, and that in which the call begins: the sums of the instructions before it.
TIMER_BEGINS, CALL_BEGINS = 36, 46
LINE_0, LINE_1, TIMER = 1, 2, 8
NOP, RETI, SET_GIE = 0x4303, 0x1300, 0xD232


def tells_registers() -> list[int]:
    """Each register from R4 on is sent over the serial line, the low byte first."""
    return [word for n in range(4, 16) for word in (0x40C2 | n << 8, 0x0071, 0x1080 | n) * 2]


# Of each handler, the words between the end of its interrupt's cause and its RETI.
BODIES: dict[str, list[int]] = {
    "returns": [],
    "one more cycle": [NOP],
    "thirteen more cycles": [NOP] * 13,
    "tells its registers": tells_registers(),
    "may be interrupted": [SET_GIE, NOP, NOP, NOP, NOP],
}
SINGLE = ["returns", "one more cycle", "thirteen more cycles", "tells its registers", "calls again"]
PAIRS = ["returns", "thirteen more cycles", "may be interrupted"]


class Plan(NamedTuple):
    """One run of each secret: interrupts by `line` or `timer`, the handler, and the cycles of one or two interrupts."""

    kind: str
    handler: str
    first: int | None = None
    second: int | None = None

    def __str__(self) -> str:
        if self.first is None:
            return "no interrupt"
        what = "line 0 up" if self.kind == "line" else "timer"
        more = f"line 1 up {self.second}" if self.kind == "line" else f"again, its limit {(self.second or 0) - self.first}"
        return f"{what} in cycle {self.first}{'' if self.second is None else f', and {more}'}, handler: {self.handler}"

    @property
    def group(self) -> str:
        """The kind and the handler, of single interrupts or of pairs."""
        return f"{'single' if self.second is None else 'pairs'}, {self.kind}, handler: {self.handler}"


ALONE = Plan("line", SINGLE[0])


def length_of(handler: str) -> int:
    """At most so many cycles from a handler's begin to the resumption."""
    return {"tells its registers": 12 * 10, "thirteen more cycles": 13}.get(handler, 6) + 4 + 5 + 5 + 5


def plans_of(first: int, last: int, single: bool = False, handler: str | None = None) -> Iterator[Plan]:
    """All plans of a span of cycles. The second interrupt may come as late as the first puts off the end of the call."""
    ways = [(kind, name) for kind in ("line", "timer") for name in SINGLE if handler in (None, name)]
    yield from (Plan(*way, cycle) for way in ways for cycle in range(first, last + 1))
    for way in [(kind, name) for kind in ("line", "timer") for name in PAIRS if handler in (None, name) and not single]:
        yield from (Plan(*way, cycle, second) for cycle in range(first, last + 1)
                    for second in range(cycle + 1, last + 12 + length_of(way[1])))


def stood(image: Image, entry: int) -> tuple[Image, tuple[int, ...]]:
    """The image and R0 to R15 at the first moment at which its outside is about to begin the instruction at `entry`."""
    rows = range(FIRST, SIZE, ROW)
    lines = image.monitor("\n".join([f"until {entry:04x} {LIMIT}", "regs", *(f"mem {row:04x} {ROW}" for row in rows), ""]))
    at = next((n for n, line in enumerate(lines) if line.startswith("regs ")), None)
    told = lines[at].split(" ") if at is not None else []
    if at is None or len(told) != 19 or int(told[3], 16) != entry:
        raise SancusError(f"the outside does not come to {entry:04x} within {LIMIT} cycles")
    memory = bytearray(image.memory)
    for row, line in zip(rows, lines[at + 1:]):
        if not line.startswith("refused "):
            memory[row:row + ROW] = bytes.fromhex(line.split(" ")[1])
    return replace(image, memory=bytes(memory)), tuple(int(word, 16) for word in told[3:])


@dataclass(frozen=True)
class Target:
    """Images that differ in a secret alone, and what is attacked: a module by its id, or plain code from an address back to
    another."""

    images: dict[str, Image]
    module: int | None = None
    code: tuple[int, int] | None = None

    def __post_init__(self) -> None:
        if len(self.images) < 2 or (self.module is None) == (self.code is None):
            raise ValueError("a target has two images or more, and either a module or code")

    @property
    def entry(self) -> int:
        """Where the call begins."""
        return self.code[0] if self.code else next(iter(self.images.values())).modules[(self.module or 1) - 1].text.start


@dataclass(frozen=True)
class Attack:
    """What is attacked from one moment of several images on: of each secret the image and the registers there."""

    stood: list[tuple[Image, tuple[int, ...]]]
    entry: int
    base: int

    @classmethod
    def of(cls, target: Target) -> Attack:
        """The attack on a target."""
        there = [stood(image, target.entry) for image in target.images.values()]
        return cls(there, target.entry, room_in([image for image, _ in there]))

    @property
    def digest(self) -> str:
        """What the attack is, for the key of its rows."""
        told = hashlib.sha256(f"{self.entry} {self.base} {[registers for _, registers in self.stood]}\n".encode())
        for image, _ in self.stood:
            told.update(image.text.encode())
        return told.hexdigest()

    def prologue(self, registers: tuple[int, ...], limit: int) -> list[int]:
        """26 + 5 + 5 + 5 + 2 + 3 cycles: all is done by immediate words, so that its time does not depend on them."""
        values = {n: registers[n] for n in (1, *range(4, 16))}
        values[1] = values[1] or self.base + ROOM - STACK_ROOM
        made = [word for n, value in values.items() for word in (0x4030 | n, value)]
        made += [0x40F2, 0x0003, 0x0040]
        made += [0x40B2, limit, 0x0164, 0x40B2, 3 if limit else 0, 0x0160]
        return made + [0x4032, registers[2] | 8, 0x4030, self.entry]

    def handlers(self, plan: Plan) -> list[tuple[int, list[int]]]:
        """The places and words of the handlers and their vectors."""
        handler = self.base + 0x80
        body = [0x4030, self.entry] if plan.handler == "calls again" else BODIES[plan.handler] + [RETI]
        ends: list[tuple[int | None, list[int | None]]]
        if plan.kind == "line":
            ends = [(LINE_0, [0xC3D2, 0x0040]), (LINE_1, [0xC3E2, 0x0040])]
        elif plan.first is None or plan.second is None:
            ends = [(TIMER, [0x4382, 0x0160])]
        else:
            # The timer runs on to a new limit, and its vector leads to another handler.
            again = [0x40B2, plan.second - plan.first, 0x0164, 0x4382, 0x0162, 0x40B2, None, VECTORS + 2 * TIMER]
            ends = [(TIMER, again), (None, [0x4382, 0x0160])]
        parts, at = [], handler
        for vector, end in ends:
            code = [handler + 2 * (len(end) + len(body)) if word is None else word for word in end] + body
            parts.append((at, code))
            if vector is not None:
                parts.append((VECTORS + 2 * vector, [at]))
            at += 2 * len(code)
        return parts

    def images(self, plan: Plan) -> Iterator[Image]:
        """One image a secret."""
        limit = plan.first - TIMER_BEGINS - 1 if plan.kind == "timer" and plan.first is not None else 0
        handlers = self.handlers(plan)
        for image, registers in self.stood:
            memory = bytearray(image.memory)
            for at, code in [(self.base, self.prologue(registers, limit)), (RESET, [self.base]), *handlers]:
                memory[at:at + 2 * len(code)] = words(code)
            yield replace(image, handler=self.base + ROOM, memory=bytes(memory))

    def schedule(self, plan: Plan) -> Schedule:
        """The schedule of a plan."""
        made = Schedule()
        if plan.kind == "line" and plan.first is not None:
            made = made.line(plan.first, True, 0)
            made = made if plan.second is None else made.line(plan.second, True, 1)
        return made

    def runs(self, plan: Plan, cycles: int) -> list[bytes]:
        """The text of each secret's trace; `cycles` are those of the call alone."""
        bound, schedule = cycles + 2 * (12 + length_of(plan.handler)), given(self.schedule(plan))
        return [call("image", image.text.encode(), schedule, bound, takes=(0, 3)) for image in self.images(plan)]

    def over(self, target: Target) -> int:
        """The last cycle in which the call of one of the secrets is over, where nothing interrupts it."""
        if target.code:
            script = f"until {target.code[1]:04x} {LIMIT}\nregs\n"
            told = [image.monitor(script) for image in self.images(ALONE)]
            return max(int(line.split(" ")[1]) for lines in told for line in lines if line.startswith("regs "))
        traces = [Trace(text.decode("ascii")) for text in self.runs(ALONE, LIMIT)]
        ends = [[one.cycle for one in trace if isinstance(one, (Leave, Close)) and one.module == target.module] for trace in traces]
        return max(min(cycles, default=LIMIT) for cycles in ends)


def room_in(images: list[Image]) -> int:
    """The highest address from which on enough bytes are 0 in every image and outside every module."""
    taken = [part for image in images for module in image.modules for part in (module.text, module.data)]
    for start in range(VECTORS - ROOM, FIRST, -2):
        if not any(part.start < start + ROOM and start < part.stop for part in taken) \
                and not any(any(image.memory[start:start + ROOM]) for image in images):
            return start
    raise SancusError("there is no room for the attacking code")
