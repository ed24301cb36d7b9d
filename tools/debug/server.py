"""A server of gdb's remote serial protocol for a run that steps tells; it executes nothing."""
import select

from debug.record import MEMORY
from debug.search import EVENTS, Search

SIGNALS = {"Illegal": 4, "Misaligned": 10, "Straddle": 10}  # of gdb; every other rule is SIGSEGV
FIXED = {
    "qSupported": "PacketSize=4000;QStartNoAckMode+;qXfer:features:read+;vContSupported+;ReverseStep+;ReverseContinue+",
    "vCont?": "vCont;c;C;s;S;r", "qfThreadInfo": "m1", "qsThreadInfo": "l", "qC": "QC1", "qAttached": "1",
    "QStartNoAckMode": "OK"}
NAMES = ["pc", "sp", "sr", "cg"] + [f"r{k}" for k in range(4, 16)]
NEAR = 100000  # instructions that are read before the monitor is asked for the next breakpoint
MOST = 0x4000  # bytes of a packet
AT_START = "only at the start can memory be written, where that makes another image; registers never"


class Server:
    """One client's session."""

    def __init__(self, machine, outside, names, sock):
        self.machine, self.outside, self.names, self.sock = machine, outside, names, sock
        self.search, self.buffer, self.acks, self.halted = Search(), b"", True, False
        self.backwards = False  # for clients that have no command to go back
        self.width = 4  # bytes of a register: 4 for gdb, 2 for lldb

    @property
    def run(self):
        return self.machine.run

    # ---- packets

    def serve(self):
        while (packet := self.packet()) not in (None, "k"):
            done = packet[:1] == "D" or packet.startswith("vKill")
            try:
                self.send("OK" if done else self.answer(packet))
            except (ValueError, IndexError, UnicodeError):  # a packet of another form
                self.send("E01")
            self.acks = self.acks and packet != "QStartNoAckMode"
            if done:
                break

    def packet(self):
        """The next packet with the right sum, or None where the client left."""
        while True:
            while b"#" not in self.buffer[:-2]:
                while self.machine.ahead and not select.select([self.sock], [], [], 0)[0] and self.machine.read_on():
                    pass
                more = self.sock.recv(65536)
                if not more:
                    return None
                self.buffer = (self.buffer + more)[-4 * MOST:].lstrip(b"+-\x03")
            before, _, rest = self.buffer.partition(b"#")
            body, self.buffer = before.rpartition(b"$")[2], rest[2:].lstrip(b"+-\x03")
            right = b"$" in before and rest[:2].lower() == b"%02x" % (sum(body) & 255)
            if self.acks:
                self.sock.sendall(b"+" if right else b"-")
            if right:
                return body.decode("latin-1")

    def send(self, text):
        self.sock.sendall(f"${text}#{sum(text.encode('latin-1')) & 255:02x}".encode("latin-1"))

    def say(self, text):
        self.send("O" + f"sancus: {text}\n".encode().hex())

    def interrupted(self):
        """Whether the client wants to stop."""
        if select.select([self.sock], [], [], 0)[0]:
            more = self.sock.recv(65536)
            self.halted = b"\x03" in more or not more
            self.buffer += more.replace(b"\x03", b"")
        return self.halted

    # ---- where the run stands

    def reply(self, more="", signal=5):
        """The reply of where the run stands; at a stop by a rule it names the line."""
        if not self.machine.ahead and self.run.at_stop():
            line = self.stop_line()
            self.say(line)
            signal = SIGNALS.get(line.split(" ")[1], 11)
            more = f"reason:exception;description:{line.encode().hex()};"
        pc = self.registers()[:2 * self.width]
        return f"T{signal:02x}thread:1;" + (f"00:{pc};" if "x" not in pc else "") + more

    def stop_line(self):
        """The line of the stop, with the name of the module in it where a map tells it."""
        head, found, module = self.run.stopped[1].partition(" module ")
        return head + found + module + (f" {self.names[int(module)]}" if found and int(module) in self.names else "")

    def go(self):
        """Forward to what the client waits for, or to the end."""
        self.halted, search = False, self.search
        limit = self.run.known() + NEAR
        told = self.run.next_hit(search, lambda: self.interrupted() or self.run.known() > limit)
        if told is None and not self.halted and not self.run.reader.ended:
            if not (search.watches or search.events) and self.machine.jump(search.breaks, self.interrupted):
                return self.reply()
            told = self.run.next_hit(search, self.interrupted)
        if self.halted:
            return self.reply(signal=2)
        return self.reply("replaylog:end;" if told is None else self.told(told))

    def go_back(self):
        told = self.run.last_hit(self.search)
        return self.reply("replaylog:begin;" if told is None else self.told(told))

    def told(self, told):
        """The words in a reply for what was met: a watch, or an event, which is said besides."""
        if told[:1].isdigit():
            self.say(told)
            return "reason:trace;"
        return told

    def leave_range(self, packet):
        """Steps until the PC is out of a range, or something else is met."""
        low, high = (int(x, 16) for x in packet[1:].split(","))
        if self.backwards:
            return self.step_back()
        run, at = self.run, None
        self.halted = False
        while at is None or low <= run.state.regs[0] < high:
            at = run.moment
            if not run.forward():
                return self.reply("replaylog:end;")
            told = self.search.hit(run.passed, run.state.regs[0])
            if told is not None or run.moment % 1024 == 0 and self.interrupted():
                break
        return self.reply(signal=2) if self.halted else self.reply(self.told(told or ""))

    def registers(self):
        """The sixteen; in the view of the outside those that the monitor shows."""
        regs = self.machine.ahead[1] if self.machine.ahead else self.run.state.regs
        if self.outside:
            words = self.machine.ask(["regs"]).split()
            if words[2:3] != ["outside"]:
                return "xx" * 16 * self.width
            regs = [int(word, 16) for word in words[3:]]
        return "".join(value.to_bytes(self.width, "little").hex() for value in regs)

    # ---- answers

    def answer(self, packet):
        if packet.startswith("vCont;"):
            packet = packet[6:].split(";")[0].split(":")[0]
        if packet.startswith("qXfer:features:read:target.xml:"):
            at, size = (int(x, 16) for x in packet.split(":")[-1].split(","))
            part = target_xml(8 * self.width)[at:at + size]
            return ("m" if len(part) == size else "l") + part
        if packet.startswith(("qHostInfo", "qProcessInfo")):
            return f"pid:1;triple:{b'msp430-unknown-unknown'.hex()};ptrsize:2;endian:little;"
        if packet.startswith("qMemoryRegionInfo:"):  # lldb steps out only to where it may execute
            return "start:0;size:10000;permissions:rwx;" if int(packet[18:], 16) < 65536 else "start:10000;size:ffff0000;"
        if packet.startswith("qRcmd,"):
            told = self.command(bytes.fromhex(packet[6:]).decode("ascii"))
            if told:
                self.send("O" + told.encode().hex())  # both debuggers print this as text
            return "OK"
        if packet == "QThreadSuffixSupported":  # lldb alone asks this
            self.width = 2
        if packet in ("?", "qThreadStopInfo1"):
            return self.reply()
        head = packet.split(":")[0]
        if head in FIXED:
            return FIXED[head]
        if packet in ("bs", "bc"):
            return self.go_back() if packet == "bc" else self.step_back()
        kind = next((k for k in self.KINDS if packet[:1] and packet[0] in k), None)
        return self.KINDS[kind](self, packet) if kind else ""

    def step(self, _):
        if self.backwards:
            return self.step_back()
        there = self.run.forward()
        return self.reply("" if there else "replaylog:end;")

    def step_back(self):
        self.run.seek(max(0, self.run.moment - 1))
        return self.reply("" if self.run.moment else "replaylog:begin;")

    def register(self, packet):
        at = 2 * self.width * int(packet[1:].split(";")[0], 16)
        return self.registers()[at:at + 2 * self.width] or "E01"

    def memory(self, packet):
        addr, size = (int(x, 16) for x in packet[1:].split(","))
        size = max(0, min(size, MOST // 2, 65536 - addr)) if addr >= MEMORY else 0
        return self.machine.read(addr, size, self.outside).hex() or "E01"

    def write(self, packet):
        where, data = packet[1:].split(":")
        if packet[0] == "M" and self.machine.write(int(where.split(",")[0], 16), bytes.fromhex(data)):
            return "OK"
        self.say(AT_START)
        return "E01"

    def refuse(self, _):
        self.say(AT_START)
        return "E01"

    def point(self, packet):
        kind, addr, size = (int(x, 16) for x in packet[1:].split(";")[0].split(","))
        into, item = ((self.search.breaks, addr) if kind < 2 else (self.search.watches, ("wra"[kind - 2], addr, size)))
        (into.add if packet[0] == "Z" else into.discard)(item)
        return "OK"

    KINDS = {
        "sS": step, "cC": lambda self, _: self.go_back() if self.backwards else self.go(), "g": lambda self, _: self.registers(),
        "r": leave_range, "p": register, "m": memory, "M": write, "GPX": refuse, "Zz": point,
        "HT": lambda self, _: "OK"}

    def command(self, line):
        """An answer to `monitor ..` of gdb, `process plugin packet monitor ..` of lldb."""
        words, run = line.split() or [""], self.run
        if words[0] == "where":
            module = run.module()
            place = "stopped" if run.at_stop() else f"module {module} {self.names.get(module, '')}".strip()
            return f"cycle {run.cycle()} {place} instruction {run.moment}\n"
        if words[0] == "catch":
            wrong = [word for word in words[1:] if word not in EVENTS]
            if wrong:
                return f"no event of the trace: {wrong[0]}; there are {' '.join(EVENTS)}\n"
            self.search.events = set(words[1:])
            return ""
        if words[0] in ("reverse", "forward"):
            self.backwards = words[0] == "reverse"
            return ""
        if words[0] == "seek":
            run.seek_cycle(int(words[1]))
            return self.command("where")
        return self.machine.ask([part.strip() for part in line.split(";")])


def target_xml(bits):
    more = {0: ' generic="pc" type="code_ptr"', 1: ' generic="sp" type="data_ptr"', 2: ' generic="flags"'}
    rows = [f'<reg name="{name}" bitsize="{bits}" regnum="{k}" dwarf_regnum="{k}"{more.get(k, "")}/>'
            for k, name in enumerate(NAMES) if bits == 16]  # gdb knows its own, and would warn
    return ('<?xml version="1.0"?><!DOCTYPE target SYSTEM "gdb-target.dtd"><target version="1.0"><architecture>msp430'
            '</architecture><feature name="org.sancus.msp430">' + "".join(rows) + "</feature></target>")
