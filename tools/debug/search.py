"""What a client of the debugger waits for, looked for in lines of steps."""
import re

NAMES = {"w": "watch", "r": "rwatch", "a": "awatch"}
WORDS = {"w": b"write", "r": b"read", "a": b"(?:read|write)"}
EVENTS = ("enter", "leave", "hide", "resume", "irq", "handler", "reti", "protect", "close", "out")


class Search:
    """Breakpoints by address, watches by kind, address and size, and events of the trace."""

    def __init__(self):
        self.breaks, self.watches, self.events = set(), set(), set()

    def hits(self, text, begin):
        """Rising in the text behind a place: where it is, whether the moment is that behind the instruction there, and
        what to tell a client."""
        found = list(self.instructions(text, begin))
        for kind, low, size in self.watches:
            places = b"|".join(b"%04x" % (addr & 0xFFFF) for addr in range(low - 1, low + size))
            pattern = re.compile(rb"\n  %s (%s) ([0-9a-f]+)" % (WORDS[kind], places))
            for access in pattern.finditer(text, begin):
                if int(access[1], 16) >= low or len(access[2]) == 4:
                    found.append((access.start(), True, f"{NAMES[kind]}:{low:x};"))
        if self.events:
            pattern = re.compile(rb"\n(\d+ (?:%s)\b[^\n]*)" % "|".join(sorted(self.events)).encode())
            found += ((event.start(), True, event[1].decode()) for event in pattern.finditer(text, begin))
        return sorted(found)

    def instructions(self, text, begin):
        """The lines of instructions with a breakpoint."""
        for addr in self.breaks:
            words = b" %04x: " % addr
            at = text.find(words, begin)
            while at >= 0:
                yield at, False, ""
                at = text.find(words, at + 1)

    def hit(self, group, pc):
        """What to tell behind the lines of one instruction, or None."""
        behind = [what for _, after, what in self.hits(group, 0) if after]
        return behind[0] if behind else "" if pc in self.breaks else None
