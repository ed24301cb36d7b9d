"""Images: 64 KiB of memory, the modules in it, and the node's key; and what the programs say of one."""
from __future__ import annotations

import os
from collections.abc import Iterable, Sequence
from dataclasses import dataclass, field, replace

from .lines import WORD, Lines, load, rising
from .maps import Map
from .program import Word, call
from .schedule import Schedule
from .steps import Steps
from .terms import Arms, Terms
from .trace import Trace
from .verdict import Verdict

SIZE, FIRST, VECTORS, RESET, ROW = 0x10000, 0x0200, 0xFFE0, 0xFFFE, 16
ZEROS = bytes(1024)


@dataclass(frozen=True)
class Module:
    """A protected module: its vendor's number, and the addresses of its text and data."""

    vendor: int
    text: range
    data: range


def words(values: Iterable[int]) -> bytes:
    """The bytes of 16-bit words, the low one first."""
    return b"".join(value.to_bytes(2, "little") for value in values)


def filled_rows(memory: bytes | bytearray) -> list[int]:
    """The addresses of the rows of 16 bytes, from 0200 on, that are not all zero."""
    blocks = (block for block in range(0, SIZE, len(ZEROS)) if memory[block:block + len(ZEROS)] != ZEROS)
    return [at for block in blocks for at in range(max(block, FIRST), block + len(ZEROS), ROW) if memory[at:at + ROW] != ZEROS[:ROW]]


@dataclass(frozen=True)
class Image:
    """An image. It is never altered: `poke` and `dataclasses.replace` give new ones.

    `memory` has 65,536 bytes by address, `handler` is R1 of handlers over modules, and `map` is there where `link` made it.
    """

    version: int = 1
    key: bytes = bytes(16)
    handler: int = 0
    modules: tuple[Module, ...] = ()
    memory: bytes = bytes(SIZE)
    map: Map | None = field(default=None, compare=False, repr=False)

    def __post_init__(self) -> None:
        if len(self.memory) != SIZE:
            raise ValueError(f"a memory of {len(self.memory)} bytes, not {SIZE}")

    @classmethod
    def parse(cls, text: str) -> Image:
        """The image of a text; Damaged where it is none."""
        lines = Lines(text)
        version = int(lines.take("sancus-image ([12])", "image of version 1 or 2")[1])
        key = bytes.fromhex(lines.take("key ([0-9a-f]{32})", "key of 32 digits")[1])
        handler = int(lines.take(f"handler {WORD}", "line of the handlers' stack")[1], 16)
        count = int(lines.take("modules ([0-9]|[12][0-9]|3[0-2])", "number of modules")[1]) if version == 2 else None
        modules: list[Module] = []
        while (found := lines.try_take(f"module {WORD} {WORD} {WORD} {WORD} {WORD}")) is not None:
            vendor, start, stop, data, end = (int(one, 16) for one in found.groups())
            if not FIRST <= start < stop <= VECTORS or not FIRST <= data < end <= VECTORS:
                raise lines.error("a module's section is empty, or past the memory")
            modules.append(Module(vendor, range(start, stop), range(data, end)))
        if count not in (None, len(modules)) or len(modules) > (8 if count is None else 32):
            raise lines.error(f"{len(modules)} modules are not as many as there may be")
        memory, last = bytearray(SIZE), FIRST - 1
        while (found := lines.try_take(f"at {WORD} ([0-9a-f]{{32}})")) is not None:
            last = rising(lines, last, int(found[1], 16), "the address of a row")
            row = bytes.fromhex(found[2])
            if last % ROW or not any(row):
                raise lines.error("a row is all zero, or begins at no multiple of 16")
            memory[last:last + ROW] = row
        lines.take("end", "module, row or end of an image")
        lines.finish()
        return cls(version, key, handler, tuple(modules), bytes(memory))

    @classmethod
    def load(cls, path: str | os.PathLike[str]) -> Image:
        """The image of a file."""
        return load(path, cls.parse)

    @property
    def text(self) -> str:
        """The text that the programs read."""
        lines = [f"sancus-image {self.version}", f"key {self.key.hex()}", f"handler {self.handler:04x}"]
        lines += [f"modules {len(self.modules)}"] if self.version == 2 else []
        lines += [f"module {m.vendor:04x} {m.text.start:04x} {m.text.stop:04x} {m.data.start:04x} {m.data.stop:04x}"
                  for m in self.modules]
        lines += [f"at {at:04x} {self.memory[at:at + ROW].hex()}" for at in filled_rows(self.memory)]
        return "\n".join([*lines, "end", ""])

    def word(self, address: int) -> int:
        """The 16-bit word at an address."""
        return int.from_bytes(self.memory[address:address + 2], "little")

    def poke(self, place: int | str, value: int | bytes) -> Image:
        """The image with other bytes from an address, or a name of the map, on; a number is a 16-bit word.

        KeyError is raised where the map has no such name, ValueError where the bytes leave 0200 to FFFF.
        """
        if isinstance(place, str):
            if self.map is None:
                raise KeyError(f"{place}: the image has no map; `link` gives one")
            place = self.map[place].address
        data = value.to_bytes(2, "little") if isinstance(value, int) else value
        if place < FIRST or place + len(data) > SIZE:
            raise ValueError(f"no memory from {place:04x} on")
        return replace(self, memory=self.memory[:place] + data + self.memory[place + len(data):])

    def differs(self, other: Image) -> list[range]:
        """Where two memories differ: the caller can see that it is one module's data alone."""
        runs: list[range] = []
        for n, (mine, theirs) in enumerate(zip(self.memory, other.memory)):
            if mine != theirs:
                start = runs.pop().start if runs and runs[-1].stop == n else n
                runs.append(range(start, n + 1))
        return runs

    def run(self, schedule: Schedule | None = None, cycles: int = 1000) -> Trace:
        """The trace of so many cycles. A machine that stopped by a rule is an answer: see `Trace.stopped`."""
        return Trace(call("image", self._file, given(schedule), cycles, takes=(0, 3)).decode("ascii"))

    def steps(self, schedule: Schedule | None = None, cycles: int = 1000) -> Steps:
        """Each instruction of so many cycles, inside modules too."""
        return Steps(call("steps", self._file, given(schedule), cycles, lab=True, takes=(0, 3)).decode("ascii"))

    def monitor(self, script: str, schedule: Schedule | None = None) -> list[str]:
        """The lines that the monitor answers to a script."""
        return call("monitor", self._file, given(schedule), script.encode("ascii"), takes=(0, 3)).decode("ascii").splitlines()

    def dis(self, start: int, end: int) -> list[str]:
        """The lines of the listing of these addresses."""
        return call("dis", self._file, f"{start:04x}", f"{end:04x}").decode("ascii").splitlines()

    def check(self, module: int = 1) -> Verdict:
        """Whether the registers and the time of a module keep its data."""
        return self._judged("check", module)

    def balance(self, module: int, arms: Arms) -> Verdict:
        """The same with certificates of branches whose arms take equal times."""
        return self._judged("balance", module, given(arms))

    def released(self, module: int, terms: Terms, arms: Arms | None = None) -> Verdict:
        """Whether a module tells nothing of its data but its answers."""
        return self._judged("released", module, terms.text.encode(), given(arms), lab=True)

    def unroll(self, module: int, terms: Terms, arms: Arms | None = None, steps: int | None = None) -> Verdict:
        """The same, found by following all paths for at most so many steps; `sancus.program.commands` says whether it is there."""
        more: list[Word] = [] if arms is None else [given(arms)]
        more += [] if steps is None else ["--steps", steps]
        return self._judged("unroll", module, terms.text.encode(), *more, lab=True)

    def keys(self, module: int) -> tuple[bytes, bytes]:
        """The key of a module's vendor, and the module's own, 16 bytes each."""
        said = call("key", self._file, module).decode("ascii").split()
        return bytes.fromhex(said[1]), bytes.fromhex(said[3])

    def vendor(self, module: int, provider: bytes, challenges: Challenges, trace: Trace) -> list[str]:
        """What the vendor finds of each challenge in a trace: genuine, wrong or missing. `provider` is the vendor's key."""
        told = challenge_rows(challenges).encode()
        said = call("vendor", self._file, module, provider.hex(), told, trace.text.encode(), takes=(0, 9)).decode("ascii")
        return [line.split(" ")[1] for line in said.splitlines()]

    @property
    def _file(self) -> bytes:
        return self.text.encode()

    def _judged(self, command: str, module: int, *more: Word, lab: bool = False) -> Verdict:
        takes = (0, 3, 9) if command == "unroll" else (0, 9)
        return Verdict.parse(call(command, self._file, module, *more, lab=lab, takes=takes).decode("ascii"))


Challenges = Sequence[tuple[int, bytes]]
"""Of each challenge the cycle of its first byte, and its nonce of 16 bytes; a challenge comes 1,600 cycles after the last."""


def challenge_rows(challenges: Challenges) -> str:
    """The text of challenges."""
    return "".join(f"{cycle} {nonce.hex()}\n" for cycle, nonce in challenges)


def attest(challenges: Challenges) -> Schedule:
    """The schedule that sends challenges over the serial line, a byte each 100 cycles."""
    return Schedule.parse(call("challenge", challenge_rows(challenges).encode()).decode("ascii"))


def link(layout: str | os.PathLike[str], objects: Sequence[str | os.PathLike[str]]) -> Image:
    """The linked image, with its map. NoLink is raised where the objects do not link, BadFile for a file."""
    image = Image.parse(call("link", layout, *objects).decode("ascii"))
    return replace(image, map=Map.parse(call("map", layout, *objects, lab=True).decode("ascii")))


def assemble(source: str | os.PathLike[str], target: str | os.PathLike[str] | None = None) -> bytes:
    """The ELF object of a source's file, which is written to the target too where that is named."""
    made = call("asm", source)
    if target is not None:
        with open(target, "wb") as file:
            file.write(made)
    return made


def given(what: Schedule | Arms | None) -> Word:
    """The word for a text that may be left out."""
    return what.text.encode() if what is not None and what.text else "-"
