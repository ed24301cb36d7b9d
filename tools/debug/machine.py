"""The run of an image by `sancus-lab steps`, and what `sancus monitor` says of it, which is asked for what steps has no line for."""
import re
import subprocess
import tempfile
import time

from debug.record import CHUNK, MEMORY, Record
from sancus.errors import SancusError


class Machine:
    """The run of an image, and what the monitor says of it."""

    def __init__(self, programs, image, schedule, cycles):
        self.lab, self.monitor, self.schedule, self.cycles = *programs, schedule, cycles
        self.folder = tempfile.TemporaryDirectory()
        self.image, self.script = image, f"{self.folder.name}/script"
        with open(image, encoding="ascii") as file:
            self.rows = file.read().splitlines()
        self.record, self.ahead = None, None  # the cycle and the registers of a moment that the record has not come to
        self.modules = [range(int(w[2], 16), int(w[3], 16)) for w in (row.split(" ") for row in self.rows) if w[0] == "module"]
        self.open()

    def open(self):
        self.close()
        self.record, self.ahead = Record(self.lab, self.image, self.schedule, self.cycles), None

    def close(self):
        if self.record:
            self.record.close()

    @property
    def run(self):
        """The record, where the run stands."""
        self.catch_up()
        return self.record

    def catch_up(self):
        """Brings the record to the moment ahead, and compares what it and the monitor say of it."""
        if self.ahead:
            (cycle, regs), self.ahead = self.ahead, None
            self.record.seek_cycle(cycle)
            if (self.record.cycle(), self.record.state.regs) != (cycle, regs):
                raise SancusError(f"steps and the monitor differ in cycle {cycle}")

    def read_on(self):
        """Reads some of what lies before a moment ahead. Whether there was some."""
        return self.record.chunks[-1].cycle <= self.ahead[0] and self.record.more(CHUNK)

    def jump(self, breaks, interrupted):
        """Goes to the first of these addresses as the monitor finds it, ahead of the record. Whether it could: not to code in
        modules, nor where one was protected on the way, nor to an address at which an interrupt was accepted instead."""
        if not breaks or any(at in text for at in breaks for text in self.modules):
            return False
        cycle, asked = self.record.cycle(), []
        for at in breaks:
            lines = [f"go {cycle}", f"until {at:04x} {self.cycles - cycle}", "regs", "mark", "go 1"]
            asked.append(self.start(lines, f"{self.folder.name}/until{at}"))
        while any(child.poll() is None for child, _ in asked):
            if interrupted():
                for child, _ in asked:
                    child.kill()
            time.sleep(0.01)
        met = []
        for (child, path), at in zip(asked, breaks):
            with open(path, encoding="ascii") as file:
                text, _, after = file.read().partition("mark 0 at ")
            found = re.search(rf"^regs (\d+) outside ({at:04x} .*)$", text, re.M)
            if child.returncode < 0 or " protect " in text or found and re.search(rf"^{found[1]} irq", after, re.M):
                return False
            if found:
                met.append((int(found[1]), [int(word, 16) for word in found[2].split()]))
        self.ahead = min(met, default=None)
        return bool(met)

    def start(self, lines, path):
        """The monitor on a script: its process, and the file that it writes."""
        with open(f"{path}.script", "w", encoding="ascii") as file:
            file.write("\n".join(lines) + "\n")
        with open(path, "w", encoding="ascii") as out:
            words = [self.monitor, "monitor", self.image, self.schedule, f"{path}.script"]
            return subprocess.Popen(words, stdout=out), path

    def ask(self, lines):
        """What the monitor answers in this cycle: it stands outside, before the events of the cycle."""
        cycle = self.ahead[0] if self.ahead else self.record.cycle()
        with open(self.script, "w", encoding="ascii") as file:
            file.write("\n".join([f"go {cycle}", "mark", *lines]) + "\n")
        words = [self.monitor, "monitor", self.image, self.schedule, self.script]
        told = subprocess.run(words, capture_output=True, encoding="ascii", check=False)
        return told.stderr or told.stdout.partition(f"mark 0 at {cycle}\n")[2].rpartition("end ")[0]

    def read(self, addr, size, outside):
        """Bytes from an address on, as many as can be told; none of devices, which no proved command shows."""
        state, wanted = self.record.state, range(addr, addr + size)
        told = outside or self.ahead
        memory, unknown = (bytearray(65536), set(wanted)) if told else (state.memory, state.unknown)
        places = sorted({a & ~15 for a in wanted if a in unknown})
        for line in self.ask([f"mem {place:04x} 16" for place in places]).splitlines() if places else []:
            if line[4:6] == ": ":
                place, data = int(line[:4], 16), bytes.fromhex(line[6:])
                for a in unknown & set(range(place, place + len(data))):
                    memory[a] = data[a - place]
                unknown -= set(range(place, place + len(data)))
        if unknown and self.ahead and not outside:
            self.catch_up()
            return self.read(addr, size, outside)
        return bytes(memory[addr:next((a for a in wanted if a in unknown), addr + size)])

    def write(self, addr, data):
        """At the start alone: an image with other bytes is another image, which runs anew. Whether it was done."""
        if self.run.moment or addr < MEMORY or addr + len(data) > 65536:
            return False
        memory = self.run.state.memory
        memory[addr:addr + len(data)] = data
        rows = [f"at {a:04x} {memory[a:a + 16].hex()}" for a in range(MEMORY, 65536, 16) if any(memory[a:a + 16])]
        self.rows = [row for row in self.rows if row.split(" ")[0] not in ("at", "end")] + rows + ["end"]
        self.image = f"{self.folder.name}/image"
        with open(self.image, "w", encoding="ascii") as file:
            file.write("\n".join(self.rows) + "\n")
        self.open()
        return True
