"""What `sancus-lab steps` wrote of a run, and the state of the machine at each of its moments.

Moment N is before the run's instruction N. Group N is the line of that instruction with the lines up to the next one. The
text is kept in compressed chunks of whole groups, each with the state at its first moment, so that a moment costs one chunk."""
import bisect
import fcntl
import os
import re
import subprocess
import time
import zlib

from sancus.errors import SancusError

INSTRUCTION = re.compile(rb"^\d+ (\d+) ([0-9a-f]{4}): ", re.M)
STOP = re.compile(rb"^(\d+) (stop .*)$", re.M)
# These begin with a line's end, since a search for that is the fastest.
ACCESS = re.compile(rb"\n  (?:read|write) ([0-9a-f]{4}) ([0-9a-f]+)")
WRITE = re.compile(rb"\n  write ([0-9a-f]{4}) ([0-9a-f]+)")
# The lines behind which memory changes that no line tells.
SILENT = re.compile(rb" (?:unit ([13])|(irq) [^\n]*|(close) (\d+)|(protect) (\d+)[^\n]*)$", re.M)
SILENT_WORDS = (b" unit ", b" irq ", b" close ", b" protect ")
MEMORY = 0x0200  # below it are devices, which no line tells
CHUNK = 1 << 20


class State:
    """Registers and memory. `unknown` has the addresses whose bytes no line told since they changed."""

    def __init__(self, regs, memory, unknown, data):
        self.regs, self.memory, self.unknown, self.data = list(regs), bytearray(memory), set(unknown), dict(data)
        self.asked = (0, 0)

    def packed(self):
        return tuple(self.regs), zlib.compress(bytes(self.memory), 1), frozenset(self.unknown), dict(self.data)

    @classmethod
    def unpacked(cls, packed):
        regs, memory, unknown, data = packed
        return cls(regs, zlib.decompress(memory), unknown, data)

    def advance(self, text):
        """Takes lines of steps, whole ones."""
        at = 0
        if any(word in text for word in SILENT_WORDS):
            for found in SILENT.finditer(text):
                self.told(text[at:found.start()])
                self.silent(found)
                at = found.end()
        self.told(text[at:])

    def told(self, text):
        """Takes what lines of accesses and registers tell, if they stand behind a line's end."""
        for place, value in (ACCESS if self.unknown else WRITE).findall(text):
            addr, width = int(place, 16), len(value) // 2
            if addr >= MEMORY:
                self.memory[addr:addr + width] = int(value, 16).to_bytes(width, "little")
                if self.unknown:
                    self.unknown -= {addr, addr + width - 1}
        for number in range(16):
            at = text.rfind(b"r%d=" % number)
            if at >= 0:
                at += len(b"r%d=" % number)
                self.regs[number] = int(text[at:at + 4], 16)

    def silent(self, found):
        """What an arrival outside pushes and the tag of unit 3 stay unknown; `close` leaves zeros in the module's data."""
        unit, irq, close, closed, _, protected = found.groups()
        if irq:
            self.unknown |= {(self.regs[1] - k) & 0xFFFF for k in range(1, 5)}
        elif unit == b"3":
            self.unknown |= {(self.regs[14] + k) & 0xFFFF for k in range(16)}
        elif unit == b"1":
            self.asked = (self.regs[14], self.regs[15])
        elif close:
            low, high = self.data[int(closed)]
            self.memory[low:high] = bytes(high - low)
            self.unknown -= set(range(low, high))
        else:
            self.data[int(protected)] = self.asked


class Chunk:
    """Whole groups, from moment `first` on."""

    def __init__(self, first, text, state):
        self.first, self.count = first, text.count(b": ")  # no other line has a colon
        self.cycle = cycle_of(text) if text else 0
        self.packed, self.state = zlib.compress(text, 1), state.packed()

    def text(self):
        return zlib.decompress(self.packed)


def cycle_of(text):
    return int(text[:20].split(b" ", 1)[0])


class Reader:
    """The text of steps, in whole groups."""

    def __init__(self, lab, image, schedule, cycles):
        words = [lab, "steps", image, schedule, str(cycles)]
        self.child = subprocess.Popen(words, stdout=subprocess.PIPE, stderr=subprocess.PIPE)
        self.pipe, self.rest, self.ended = self.child.stdout.fileno(), b"", False
        fcntl.fcntl(self.pipe, fcntl.F_SETPIPE_SZ, CHUNK)

    def read(self, most):
        """At least one more group where there is one, and about `most` bytes where they are there: b"" at the end."""
        parts, size, head = [self.rest], len(self.rest), self.rest
        while not self.ended:
            part = os.read(self.pipe, CHUNK)
            if size + len(part) < most and len(part) < 1 << 16:
                time.sleep(0.002)  # steps writes in small pieces, each of which would wake this reader
            self.ended = not part
            parts.append(part)
            size += len(part)
            head = head + part if len(head) < 1 << 16 else head
            if size >= most and head.count(b": ") > 1:
                break
        text, self.rest = b"".join(parts), b""
        if not self.ended:
            cut = text.rfind(b"\n", 0, text.rfind(b": ")) + 1
            text, self.rest = text[:cut], text[cut:]
        return text

    def close(self):
        self.child.kill()
        return self.child.communicate()[1].decode("ascii", "replace")


class Record:
    """A run as far as it was read, and the moment at which its reader stands."""

    def __init__(self, lab, image, schedule, cycles):
        self.reader = Reader(lab, image, schedule, cycles)
        self.chunks, self.texts, self.stopped, self.passed = [], {}, None, b""
        start = State([0] * 16, *initial(image))
        text = self.reader.read(1)
        found = INSTRUCTION.search(text)
        before, text = (text[:found.start()], text[found.start():]) if found else (text, b"")
        start.advance(before)
        self.last = start
        if not text and not STOP.search(before):
            raise SancusError(self.reader.close().strip() or "steps told nothing")
        self.keep(text, before)
        self.load(0)
        self.seek(0)

    def keep(self, text, before=b""):
        """Adds a chunk. `last` is the state behind it."""
        found = STOP.search(text or before) if b" stop " in (text or before) else None
        if found:
            self.stopped = (int(found[1]), found[2].decode())
        first = self.chunks[-1].first + self.chunks[-1].count if self.chunks else 0
        if text:
            self.hold(len(self.chunks), text)
            self.chunks.append(Chunk(first, text, self.last))
            self.last.advance(text)
        elif not self.chunks:
            self.chunks.append(Chunk(0, b"", self.last))

    def more(self, most=1):
        """Reads on. Whether something came."""
        text = self.reader.read(most) if not self.reader.ended else b""
        if text:
            self.keep(text)
        return bool(text)

    def known(self):
        """The number of instructions that were read."""
        return self.chunks[-1].first + self.chunks[-1].count

    def top(self):
        """The last moment of what was read: behind the last instruction where a rule stopped it, else before it."""
        return self.known() if self.stopped else self.known() - 1

    def text_of(self, index):
        """The text of a chunk; that of the last two chunks asked for is at hand."""
        if index not in self.texts:
            self.hold(index, self.chunks[index].text())
        return self.texts[index]

    def hold(self, index, text):
        self.texts = {index: text, **dict(list(self.texts.items())[:1])}

    def load(self, index):
        """Makes a chunk the current one."""
        self.index, self.current, self.text = index, self.chunks[index], self.text_of(index)
        self.starts = [found.start() for found in INSTRUCTION.finditer(self.text)] + [len(self.text)]
        self.state, self.moment = State.unpacked(self.current.state), self.current.first

    def group(self):
        """The lines of the instruction at this moment."""
        at = self.moment - self.current.first
        return self.text[self.starts[at]:self.starts[at + 1]]

    def at_stop(self):
        return self.stopped is not None and self.moment == self.known()

    def cycle(self):
        return self.stopped[0] if self.at_stop() else cycle_of(self.group())

    def module(self):
        """The module that is active."""
        return 0 if self.at_stop() else int(INSTRUCTION.match(self.group())[1])

    def reach(self, moment):
        """Reads on until there is this moment, if it comes. Whether it is there."""
        while self.top() < moment and self.more(CHUNK if moment - self.known() > 1000 else 1):
            pass
        return moment <= self.top()

    def seek(self, moment):
        """Goes to a moment that was read."""
        index = max(0, bisect.bisect_right(self.chunks, moment, key=lambda chunk: chunk.first) - 1)
        if index != self.index or moment < self.moment:
            self.load(index)
        begin, end = (self.starts[m - self.current.first] for m in (self.moment, moment))
        self.state.advance(self.text[begin:end])
        self.moment = moment
        if self.at_stop():
            self.state.regs[0] = int(re.search(" pc ([0-9a-f]{4})", self.stopped[1])[1], 16)
        else:
            self.state.regs[0] = int(INSTRUCTION.match(self.group())[2], 16)

    def forward(self):
        """One instruction, whose lines are `passed` then. Whether there was one."""
        there = self.reach(self.moment + 1)
        if there:
            self.passed = self.group()
            self.seek(self.moment + 1)
        return there

    def seek_cycle(self, cycle):
        """Goes to the first moment in this cycle or behind it, or to the last one."""
        while self.chunks[-1].cycle <= cycle and self.more(CHUNK):
            pass
        self.load(max(0, bisect.bisect_right(self.chunks, cycle, key=lambda chunk: chunk.cycle) - 1))
        at = bisect.bisect_left(self.starts[:-1], cycle, key=lambda start: cycle_of(self.text[start:start + 20]))
        self.seek(min(self.moment + at, self.top()))

    def next_hit(self, search, interrupted):
        """Goes to the first moment behind this one that `search` looks for, and says what is there; where there is none, or
        `interrupted` says so between two chunks, to the last moment read."""
        index, begin, origin = self.index, self.starts[self.moment - self.current.first], self.moment
        while True:
            text, first = self.text_of(index), self.chunks[index].first
            for place, _, what in search.hits(text, begin):
                moment = first + text.count(b": ", 0, place)
                if moment > origin:
                    self.reach(moment)
                    self.seek(min(moment, self.top()))
                    return what
            index, begin = index + 1, 0
            if interrupted() or index == len(self.chunks) and not self.more(CHUNK):
                self.seek(self.top())
                return None

    def last_hit(self, search):
        """Goes to the last moment before this one that `search` looks for, and says what is there; else to the start."""
        top = self.starts[self.moment - self.current.first]
        for index in range(self.index, -1, -1):
            text = self.text_of(index)
            *_, last = None, *(hit for hit in search.hits(text, 0) if hit[0] < top)
            if last:
                self.seek(self.chunks[index].first + text.count(b": ", 0, last[0]) - last[1])
                return last[2]
            top = CHUNK * CHUNK
        self.seek(0)
        return None

    def close(self):
        self.reader.close()


def initial(image):
    """Memory, what is unknown of it, and the data of the modules that are in an image."""
    memory, data = bytearray(65536), {}
    with open(image, encoding="ascii") as file:
        rows = [row.split(" ") for row in file.read().splitlines()]
    for words in rows:
        if words[0] == "module":
            data[len(data) + 1] = (int(words[4], 16), int(words[5], 16))
        elif words[0] == "at":
            memory[int(words[1], 16):int(words[1], 16) + 16] = bytes.fromhex(words[2])
    return memory, set(), data
