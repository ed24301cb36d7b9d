"""Random modules that are meant to be accepted: by `check`, or with a branch on a secret by `balance`."""

DATA_WORDS, STACK = 16, 16
ARGUMENT, POINTER, COUNTER = 12, 4, 5
NOP, JMP, JNE = 0x4303, 7, 0


def two(op, source, mode, to, byte=0, absolute=0):
    return op << 12 | source << 8 | absolute << 7 | byte << 6 | mode << 4 | to


def jump(condition, words):
    return 0x2000 | condition << 10 | (words & 0x3FF)


class Drawn:
    """A module's text, the certificates of its branches, and how it goes on being drawn.

    Its data are 16 words and a stack. R12 is an argument that stays public up to the end; R4 points into the data,
    R5 counts the turns of a loop.
    """

    def __init__(self, rng, text, data, back):
        self.rng, self.start, self.data, self.words, self.arms = rng, text, data, [], []
        self.words += [0x4031, data + 2 * DATA_WORDS + STACK]
        for _ in range(rng.randint(1, 6)):
            rng.choice([self.straight, self.straight, self.loop, self.choice, self.branch, self.stack, self.unit])()
        self.finish(back)

    def here(self):
        return self.start + 2 * len(self.words)

    def register(self):
        return self.rng.choice([6, 7, 8, 9, 10, 11, 13, 14, 15])

    def word(self):
        return self.data + 2 * self.rng.randrange(DATA_WORDS)

    def value(self):
        return self.rng.choice([0, 1, 0xFFFF, 0x8000, self.rng.randrange(0x10000)])

    def simple(self):
        """One instruction, and its cycles."""
        rng, op, byte = self.rng, self.rng.randrange(4, 16), self.rng.randrange(2)
        kind = rng.randrange(9)
        if kind < 2:
            return [two(op, rng.choice([self.register(), ARGUMENT]), 0, self.register(), byte)], 1
        if kind == 2:
            return [two(op, 3, rng.randrange(4), self.register(), byte)], 1
        if kind == 3:
            return [two(op, 0, 3, self.register(), byte), self.value()], 2
        if kind == 4:
            return [two(op, 2, 1, self.register(), byte), self.word() + byte * rng.randrange(2)], 3
        if kind == 5:
            return [two(op, self.register(), 0, 2, byte, 1), self.word() + byte * rng.randrange(2)], 4
        if kind == 6:
            return [two(op, 2, 1, 2, byte, 1), self.word(), self.word()], 6
        if kind == 7:
            return [0x1000 | rng.choice([0, 2]) << 7 | byte << 6 | self.register()], 1
        return [0x1080 | rng.choice([0, 2]) << 7 | self.register()], 1

    def some(self, least, most):
        """Some instructions, and their cycles."""
        drawn = [self.simple() for _ in range(self.rng.randint(least, most))]
        return [word for words, _ in drawn for word in words], sum(cycles for _, cycles in drawn)

    def straight(self):
        self.words += self.some(1, 6)[0]
        if self.rng.randrange(2):
            read = two(self.rng.randrange(4, 16), POINTER, self.rng.choice([2, 3]), self.register())
            self.words += [0x4030 | POINTER, self.word(), read]

    def loop(self):
        """A number of turns that is known."""
        body = self.some(1, 4)[0]
        back = [two(8, 3, 1, COUNTER), jump(JNE, -len(body) - 2)]
        self.words += [0x4030 | COUNTER, self.rng.randint(1, 5), *body, *back]

    def choice(self):
        """A conditional jump on the argument, over instructions of any time."""
        body = self.some(1, 4)[0]
        self.words += [two(9, 0, 3, ARGUMENT), self.value(), jump(self.rng.randrange(7), len(body)), *body]

    def stack(self):
        self.words += [0x1200 | self.register(), *self.some(0, 2)[0], 0x4130 | self.register()]

    def unit(self):
        """The module's own id, or its caller's, in R15."""
        self.words.append(self.rng.choice([0x1385, 0x1386]))

    def branch(self):
        """A conditional jump on a secret, whose arms take equal cycles."""
        (one, long_one), (other, long_other) = self.some(0, 4), self.some(0, 4)
        one += [NOP] * max(0, long_other - long_one)
        other += [NOP] * max(0, long_one - long_other)
        self.words += [two(4, 2, 1, 13), self.word(), two(9, 0, 3, 13), self.value()]
        at = self.here()
        self.words += [jump(self.rng.randrange(7), len(one) + 1), *one, jump(JMP, len(other) + 1), *other, jump(JMP, 0)]
        self.arms.append((at, self.here(), max(long_one, long_other) + 2))

    def finish(self, back):
        """All registers and the flags are made known again, and the outside's stack is set."""
        for number in range(4, 16):
            self.words += [0x4300 | number] if self.rng.randrange(2) else [0x4030 | number, self.rng.randrange(0x10000)]
        self.words += [0x4031, 0x0600, 0xC032, 0x0107, 0x4030, back]
