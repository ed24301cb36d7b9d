"""Steps: each instruction of a run with what it reads, writes and changes."""
from __future__ import annotations

import os
import re
from collections.abc import Iterator
from dataclasses import dataclass, field
from typing import TYPE_CHECKING

from .lines import CYCLE, DECIMAL, WORD, Lines, load
from .trace import End, Event, Trace, checked, event

if TYPE_CHECKING:
    import pandas


@dataclass(frozen=True, slots=True)
class Access:
    """A read or write of a byte (`size` 1) or a word (2) at an address."""

    write: bool
    address: int
    value: int
    size: int


@dataclass(slots=True)
class Step:
    """An instruction: the cycle in which it begins, the module that is active (0 outside), its address, words and text,
    its accesses in their order, and the registers that it changes, by number."""

    cycle: int
    module: int
    pc: int
    words: tuple[int, ...]
    text: str
    accesses: list[Access] = field(default_factory=list)
    changed: dict[int, int] = field(default_factory=dict)


# `addc` and `dadd` are words of four digits too: before an operand they are the mnemonic.
STEP = re.compile(f"{CYCLE} {DECIMAL} {WORD}: ((?:(?!(?:addc|dadd) (?:r[0-9]|[#&@]|0x))[0-9a-f]{{4}} )+)([a-z].*)")
ACCESS = re.compile(f"  (read|write) {WORD} ([0-9a-f]{{4}}|[0-9a-f]{{2}})")
REGISTERS = re.compile("  (r(?:[0-9]|1[0-5])=[0-9a-f]{4}(?: r(?:[0-9]|1[0-5])=[0-9a-f]{4})*)")


class Steps:
    """The text as the program wrote it, its steps, and the trace that it has besides.

    `arrivals` are the changes of registers without an instruction, by the cycle of the trace's line before them.
    """

    def __init__(self, text: str) -> None:
        """Damaged is raised where the text is no whole run."""
        lines, events = Lines(text), list[Event]()
        self.text, self.steps, self.arrivals = text, list[Step](), dict[int, dict[int, int]]()
        kept, open_step = [], None
        for line in lines:
            if (found := STEP.fullmatch(line)) is not None:
                at, module, pc, code, shown = found.groups()
                open_step = Step(int(at), int(module), int(pc, 16), tuple(int(w, 16) for w in code.split()), shown)
                self.steps.append(open_step)
            elif (access := ACCESS.fullmatch(line)) is not None and open_step is not None:
                open_step.accesses.append(Access(access[1] == "write", int(access[2], 16), int(access[3], 16), len(access[3]) // 2))
            elif (registers := REGISTERS.fullmatch(line)) is not None and (open_step or events):
                changed = {int(n[1:]): int(v, 16) for n, _, v in (one.partition("=") for one in registers[1].split(" "))}
                (open_step.changed if open_step else self.arrivals.setdefault(events[-1].cycle, {})).update(changed)
            elif (now := event(line)) is not None:
                checked(lines, events, now)
                kept.append(line)
                open_step = None
            else:
                raise lines.error("no line of steps")
        if not events or not isinstance(events[-1], End):
            raise lines.error("the run is cut: it has no end line")
        self.trace = Trace("\n".join([*kept, ""]))

    @classmethod
    def load(cls, path: str | os.PathLike[str]) -> Steps:
        """The steps of a file."""
        return load(path, cls)

    def __iter__(self) -> Iterator[Step]:
        return iter(self.steps)

    def __len__(self) -> int:
        return len(self.steps)

    def frame(self) -> pandas.DataFrame:
        """A row for each instruction: `cycle`, `module`, `pc`, `text`, and the addresses of its `reads` and `writes`."""
        import pandas
        return pandas.DataFrame([{"cycle": s.cycle, "module": s.module, "pc": s.pc, "text": s.text,
                                  "reads": [a.address for a in s.accesses if not a.write],
                                  "writes": [a.address for a in s.accesses if a.write]} for s in self.steps])
