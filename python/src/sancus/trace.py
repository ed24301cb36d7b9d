"""Traces: each line is an event, as an observer outside the modules sees it."""
from __future__ import annotations

import os
import re
from collections.abc import Iterator
from dataclasses import dataclass, fields
from typing import TYPE_CHECKING, TypeVar

from .lines import CYCLE, DECIMAL, WORD, Lines, load, rising

if TYPE_CHECKING:
    import pandas


@dataclass(frozen=True, slots=True)
class Event:
    """What happens in a cycle, counted from 0."""

    cycle: int


@dataclass(frozen=True, slots=True)
class Enter(Event):
    """A module is entered, from another or from outside (0)."""

    module: int
    origin: int


@dataclass(frozen=True, slots=True)
class Leave(Event):
    """A module is left to an address."""

    module: int
    pc: int


@dataclass(frozen=True, slots=True)
class Close(Event):
    """A module closed itself."""

    module: int


@dataclass(frozen=True, slots=True)
class Hide(Event):
    """A module is interrupted, and its registers are put away."""

    module: int
    vector: int


@dataclass(frozen=True, slots=True)
class Handler(Event):
    """A handler over a module begins at an address."""

    pc: int


@dataclass(frozen=True, slots=True)
class Resume(Event):
    """An interrupted module goes on."""

    module: int


@dataclass(frozen=True, slots=True)
class Irq(Event):
    """An interrupt outside modules; its handler begins 6 cycles later."""

    vector: int


@dataclass(frozen=True, slots=True)
class Reti(Event):
    """A return from an interrupt outside modules."""


@dataclass(frozen=True, slots=True)
class Protect(Event):
    """A module was made."""

    module: int


@dataclass(frozen=True, slots=True)
class Out(Event):
    """A byte was sent on the serial line."""

    byte: int


@dataclass(frozen=True, slots=True)
class Stop(Event):
    """The machine stops by a rule: where, at which address, and the module concerned, or 0."""

    rule: str
    pc: int
    address: int
    module: int


@dataclass(frozen=True, slots=True)
class End(Event):
    """The last line: R0 to R15 outside, or the module that is active, or neither where the machine stopped."""

    registers: tuple[int, ...] | None = None
    module: int | None = None


E = TypeVar("E", bound=Event)
RULES = ("FetchNotEntry", "FetchData", "FetchDevice", "ReadData", "WriteData", "WriteText", "Reenter", "Misaligned", "Straddle",
         "Illegal", "RetiInside")
FORMS: dict[str, tuple[type[Event], re.Pattern[str], tuple[int, ...]]] = {
    kind: (made, re.compile(f"{CYCLE} {kind}{form}"), bases) for kind, made, form, bases in (
        ("enter", Enter, f" {DECIMAL} from {DECIMAL}", (10, 10)),
        ("leave", Leave, f" {DECIMAL} pc {WORD}", (10, 16)),
        ("close", Close, f" {DECIMAL}", (10,)),
        ("hide", Hide, f" {DECIMAL} vector {DECIMAL}", (10, 10)),
        ("handler", Handler, f" pc {WORD}", (16,)),
        ("resume", Resume, f" {DECIMAL}", (10,)),
        ("irq", Irq, f" {DECIMAL}", (10,)),
        ("reti", Reti, "", ()),
        ("protect", Protect, f" {DECIMAL}", (10,)),
        ("out", Out, " ([0-9a-f]{2})", (16,)),
    )}
STOP = re.compile(f"{CYCLE} stop ({'|'.join(RULES)}) pc {WORD} addr {WORD} module {DECIMAL}")
END = re.compile(f"end {CYCLE} (?:outside ((?:[0-9a-f]{{4}} ){{15}}[0-9a-f]{{4}})|inside {DECIMAL}|stopped)")


def event(line: str) -> Event | None:
    """The event of a line of a trace; None where it is none."""
    if (ends := END.fullmatch(line)) is not None:
        registers = tuple(int(word, 16) for word in ends[2].split(" ")) if ends[2] else None
        return End(int(ends[1]), registers, int(ends[3]) if ends[3] else None)
    if (stop := STOP.fullmatch(line)) is not None:
        return Stop(int(stop[1]), stop[2], int(stop[3], 16), int(stop[4], 16), int(stop[5]))
    made, form, bases = FORMS.get((line.split(" ", 2) + [""])[1], (Event, None, ()))
    found = form.fullmatch(line) if form else None
    if found is None:
        return None
    at, *more = found.groups()
    return made(int(at), *(int(value, base) for value, base in zip(more, bases)))


def checked(lines: Lines, events: list[Event], now: Event) -> None:
    """Takes an event behind those before it: cycles never fall, and nothing stands behind the end."""
    before = events[-1] if events else None
    if isinstance(before, End):
        raise lines.error("a line behind the end of the trace")
    if isinstance(now, End) and (now.registers is None and now.module is None) != isinstance(before, Stop):
        raise lines.error("a stop and its end do not stand together")
    if isinstance(before, Stop) and not isinstance(now, End):
        raise lines.error("a line between a stop and its end")
    rising(lines, before.cycle if before else 0, now.cycle, "the cycle", equal=True)
    events.append(now)


class Trace:
    """The text as the program wrote it, which equality is about, and its events."""

    __slots__ = ("text", "events")

    def __init__(self, text: str) -> None:
        """Damaged is raised where the text is no whole trace."""
        lines, events = Lines(text), list[Event]()
        for line in lines:
            now = event(line)
            if now is None:
                raise lines.error("no line of a trace")
            checked(lines, events, now)
        if not events or not isinstance(events[-1], End):
            raise lines.error("the trace is cut: it has no end line")
        self.text, self.events = text, tuple(events)

    @classmethod
    def load(cls, path: str | os.PathLike[str]) -> Trace:
        """The trace of a file."""
        return load(path, cls)

    def __iter__(self) -> Iterator[Event]:
        return iter(self.events)

    def __len__(self) -> int:
        return len(self.events)

    def __eq__(self, other: object) -> bool:
        return isinstance(other, Trace) and self.text == other.text

    def __hash__(self) -> int:
        return hash(self.text)

    def of(self, kind: type[E]) -> list[E]:
        """The events of a kind."""
        return [one for one in self.events if isinstance(one, kind)]

    def first(self, kind: type[E], since: int = 0) -> E | None:
        """The first event of a kind from a cycle on, or None."""
        return next((one for one in self.of(kind) if one.cycle >= since), None)

    @property
    def end(self) -> End:
        """The last line."""
        last = self.events[-1]
        assert isinstance(last, End)
        return last

    @property
    def stopped(self) -> Stop | None:
        """Where the machine stopped by a rule, or None."""
        return self.first(Stop)

    @property
    def sent(self) -> bytes:
        """The bytes that were sent on the serial line."""
        return bytes(one.byte for one in self.of(Out))

    def latency(self, pulse: int) -> int | None:
        """Cycles from a pulse to the first instruction of its handler: to `handler`, or to 6 cycles behind `irq`."""
        begins = [one.cycle + (6 if isinstance(one, Irq) else 0) for one in self.events
                  if isinstance(one, (Irq, Handler)) and one.cycle >= pulse]
        return begins[0] - pulse if begins else None

    def difference(self, other: Trace) -> int | None:
        """The first line, from 1, in which two traces differ; None where they are equal."""
        mine, theirs = self.text.splitlines(), other.text.splitlines()
        longer = range(max(len(mine), len(theirs)))
        return next((n + 1 for n in longer if mine[n:n + 1] != theirs[n:n + 1]), None)

    def frame(self) -> pandas.DataFrame:
        """A row for each event: `event` (its name), `cycle`, and the event's own fields, NA where it has none."""
        import pandas
        return pandas.DataFrame([{"event": type(one).__name__.lower(), **{f.name: getattr(one, f.name) for f in fields(one)}}
                                 for one in self.events])
