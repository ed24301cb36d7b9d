#!/usr/bin/env python3
"""The terms that `sancus-lab terms` writes, against all subsets of the granted terms, each judged by `released`.

    python3 validate/terms.py SANCUS SANCUS_LAB [CASES] [SEED]

SANCUS and SANCUS_LAB are the built programs. CASES (3000) random texts, some with certificates, and a few that were
chosen: each with up to three registers that may be answers and up to four words that may be public. Of these `terms`
has to write the most words under which some answers are accepted, and with these words the fewest answers; where no
subset is accepted, a no. Needs Python 3 alone.
"""
import collections
import itertools
import os
import pathlib
import random
import sys
import tempfile

import flow
import machine
import released
from sancus.command import Usage, start

ANSWERS = pathlib.Path(__file__).resolve().parent.parent / "examples" / "answers"
IMMEDIATE, ABSOLUTE, INDIRECT = 3, 1, 2
MOV, ADD, CMP, XOR, AND = 4, 5, 9, 14, 15
FLAGS, CLEAR_FLAGS, RETURN, LEAVE = 2, [0xC032, 0x0107], 0x4130, [0x4030, flow.OUTSIDE]
EQUAL, ALWAYS = 1, 7
REFUSED = 9  # the status of a no

# An image with its module 1, certificates, and the registers and words that are granted.
Case = collections.namedtuple("Case", "image arms answers public")
# The pairs of words and answers with a yes; what is said of the others, of all words without an answer, and by `terms`.
Told = collections.namedtuple("Told", "accepted refusals first terms")


def case_of(words, arms, answers, public):
    return Case(flow.image_of(words, bytes(flow.DATA_END - flow.DATA)), arms, answers, public)


def loaded(number, word):
    return [flow.two(MOV, 0, 0, IMMEDIATE, number), word]


def copied(source, to, op=MOV):
    """From a data word to another."""
    return [flow.two(op, 2, 0, ABSOLUTE, 2, absolute=True), source, to]


def jump(condition, words):
    return 0x2000 | condition << 10 | words & 0x3FF


def of_word(rng, places):
    """An instruction from a data word to one of these words, or to a register."""
    op = rng.choice([MOV, MOV, ADD, CMP, XOR, AND])
    source = rng.choice([flow.data_word(rng), rng.choice(places)])
    if rng.randrange(3):
        return copied(source, rng.choice(places), op)
    return [flow.two(op, 2, 0, ABSOLUTE, flow.register(rng)), source]


def through(rng, number):
    """An instruction that reaches a data word through this register."""
    if rng.randrange(2):
        return [flow.two(rng.choice([MOV, ADD, CMP]), number, 0, INDIRECT, flow.register(rng))]
    return [flow.two(MOV, flow.register(rng), 0, 0, number, absolute=True), 0]


def entered_branch(start, base, one, other, left, right):
    """A branch on a difference of words, and its certificate: an arm reaches a word through the register BASE, and is
    entered from before with another address in it."""
    words = [*loaded(base, one), 0x9303, jump(EQUAL, 7), *loaded(base, other), *copied(left, right, CMP)]
    words += [jump(EQUAL, 4)]
    at = start + 2 * len(words) - 2
    words += [flow.NOP, 0x4480 | base, 0, jump(ALWAYS, 6), *[flow.NOP] * 5, jump(ALWAYS, 0)]
    return words, f"{at:04x} {start + 2 * len(words):04x} 7\n"


def text_of(rng, answers, places):
    """Some instructions and branches, most of what may be no answer made known again, a jump back; certificates."""
    words, arms, base = [], "", None
    for _ in range(rng.randint(2, 9)):
        kind, at = rng.randrange(24), flow.TEXT + 2 * len(words)
        if kind < 3:
            if rng.randrange(8):
                more, certificate = flow.branch(rng, at)
            else:
                more, certificate = entered_branch(at, flow.register(rng), *rng.choices(places, k=4))
            words, arms = words + more, arms + certificate
        elif kind < 13:
            words += of_word(rng, places)
        elif kind < 15:
            base = flow.register(rng)
            words += loaded(base, rng.choice(places))
        elif kind < 17 and base:
            words += through(rng, base)
        else:
            words += flow.instruction(rng)
    for number in range(4, 16):
        if number not in answers and rng.randrange(12):
            words += loaded(number, rng.randrange(65536))
    if FLAGS not in answers and rng.randrange(8):
        words += CLEAR_FLAGS
    return words + LEAVE, arms


def random_case(rng):
    places = rng.sample(range(flow.DATA, flow.DATA_END, 2), 5)
    answers = sorted(rng.sample(released.REGISTERS[1:], rng.choice([0, 1, 1, 2, 3])))
    public = sorted(rng.sample(places, rng.choice([0, 1, 2, 2, 3, 4])))
    return case_of(*text_of(rng, answers, places), answers, public)


def chain():
    """Each word becomes the next one, the last a secret, and the first is answered: one after another is refused."""
    words = [word for at in range(0x0400, 0x0408, 2) for word in copied(at + 2, at)]
    return case_of([*words, 0x4214, 0x0400, *LEAVE], "", [4, 5], [0x0400, 0x0402, 0x0404, 0x0406])


def looked_at():
    """A branch on a word that is given a secret: no terms are right."""
    words = [*copied(0x0402, 0x0400), 0x9382, 0x0400, jump(EQUAL, 0), *CLEAR_FLAGS, *LEAVE]
    return case_of(words, "", [4], [0x0400])


def entered():
    """The branch of `entered_branch` alone, on the difference of two words, with two addresses."""
    words, arms = entered_branch(flow.TEXT, 5, 0x0410, 0x0412, 0x0400, 0x0402)
    return case_of([*words, *loaded(5, 0), *CLEAR_FLAGS, *LEAVE], arms, [4], [0x0400, 0x0402])


def nested():
    """A branch on a word, with a certificate, in a procedure with 729 lists of return addresses: too many pairs."""
    depth, calls, arm = 6, 3, [flow.NOP] * 12
    starts = [flow.TEXT + 2 * (2 + 2 * calls + 4 + level * (2 * calls + 1)) for level in range(depth)]
    words = loaded(1, flow.DATA_END) + [0x12B0, starts[0]] * calls + CLEAR_FLAGS + LEAVE
    for start in starts[1:]:
        words += [0x12B0, start] * calls + [RETURN]
    words += [0x9382, 0x0400]
    at = flow.TEXT + 2 * len(words)
    words += [jump(EQUAL, len(arm) + 1), *arm, jump(ALWAYS, len(arm) + 1), *arm, jump(ALWAYS, 0)]
    return case_of([*words, RETURN], f"{at:04x} {flow.TEXT + 2 * len(words):04x} {len(arm) + 2}\n", [4], [0x0400])


def chosen_cases(program):
    """Handwritten texts, and the modules of examples/answers with their entry stubs."""
    cases = {"chain": chain(), "looked at": looked_at(), "entered": entered(), "nested": nested()}
    for name, layout, answers, public in [
        ("lock", "lock", [12, 13, 14], [0x1100, 0x1122, 0x1126]),
        ("early", "lock", [12, 13, 14], [0x1124, 0x1126]),
        ("mac", "mac", [12, 13, 14], [0x2050, 0x2052]),
    ]:
        image = machine.run([program, "link", ANSWERS / f"{layout}.toml", ANSWERS / f"{name}.o"])[0]
        cases[name] = Case(image, "", answers, public)
    return cases


def subsets(values):
    return [some for size in range(len(values) + 1) for some in itertools.combinations(values, size)]


def told_of(lab, folder, case):
    terms_path, arms_path = (os.path.join(folder, name) for name in ("terms", "arms"))

    def asked(command, answers, public):
        for path, text in (terms_path, released.text_of(answers, public)), (arms_path, case.arms):
            with open(path, "w", encoding="ascii") as it:
                it.write(text)
        told = machine.sancus(lab, folder, case.image, command, "IMAGE", "1", terms_path, arms_path)
        if told[1:] != (REFUSED if told[0].startswith("no ") else 0, ""):
            raise SystemExit(f"{command} ended with {told}")
        return told[0]

    said = {(public, answers): asked("released", answers, public)
            for public, answers in itertools.product(subsets(case.public), subsets(case.answers))}
    accepted = [(frozenset(public), frozenset(answers)) for (public, answers), told in said.items() if told == "yes\n"]
    first = said[tuple(case.public), ()]
    refusals = {told for told in said.values() if told != "yes\n"}
    return Told(accepted, refusals, first, asked("terms", case.answers, case.public))


def least(sets):
    """The one of these sets that is within all others, if there is one."""
    meet = frozenset.intersection(*sets)
    return meet if meet in sets else None


def difference(case, told):
    """What is wrong with what `terms` wrote, or with the words `most` and `fewest`; None where nothing is."""
    if not told.accepted:
        return None if told.terms in told.refusals else "no subset is accepted"
    answers_of = collections.defaultdict(set)
    for public, answers in told.accepted:
        answers_of[public].add(answers)
    if any(one | other not in answers_of for one, other in itertools.combinations(answers_of, 2)):
        return "two sets of words are accepted, and not both together"
    fewest = {public: least(sets) for public, sets in answers_of.items()}
    if None in fewest.values():
        return "the fewest answers are not one set"
    if any(len(sets) != 2 ** (len(case.answers) - len(fewest[public])) for public, sets in answers_of.items()):
        return "more answers are refused"
    most = frozenset.union(*answers_of)
    best = released.text_of(sorted(fewest[most]), sorted(most))
    return None if told.terms == best else f"the best terms are {best.split()}"


def is_explained(lab, folder, case, told):
    """Whether all that is accepted is so by certificates. They count where a branch is on a secret. On a public word
    its arms are walked like other code: they have pairs of their own, of which there may be too many, and meet other
    ways, where an address may be known no more."""
    words = told.terms.split()
    if not case.arms or words[0] != "no":
        return False
    arms = [[int(word, 16) for word in line.split()[:2]] for line in case.arms.splitlines()]
    in_arm = any(branch < int(words[1], 16) < join for branch, join in arms)
    by_arm = words[2] == "TooMany" or (in_arm and words[2:] == ["OutsideAccess", "0000"])
    return by_arm and not told_of(lab, folder, case._replace(arms="")).accepted


def named(answer):
    """The reason of a no, or yes."""
    return answer.split()[2] if answer.startswith("no") else "yes"


def count(counts, case, told):
    words, answers = told.terms.count("public"), told.terms.count("answer")
    counts["subsets"] += 2 ** (len(case.public) + len(case.answers))
    counts["certified"] += case.arms != ""
    counts["accepted"] += bool(told.accepted)
    counts["proper"] += 0 < words < len(case.public) or answers > 0


def main(words):
    if len(words) < 2:
        raise Usage
    program, lab = words[0], words[1]
    wanted = int(words[2]) if len(words) > 2 else 3000
    rng = random.Random(int(words[3]) if len(words) > 3 else 1)
    counts, firsts, found, unexplained = collections.Counter(), collections.Counter(), collections.Counter(), 0
    randoms = ((None, random_case(rng)) for _ in range(wanted))
    with tempfile.TemporaryDirectory() as folder:
        for name, case in itertools.chain(chosen_cases(program).items(), randoms):
            told = told_of(lab, folder, case)
            wrong = difference(case, told)
            if name:
                print(f"{name}: {' '.join(told.terms.split())}{', but ' + wrong if wrong else ''}")
            if wrong:
                found[wrong.split(" are [")[0]] += 1
            if wrong and not is_explained(lab, folder, case, told):
                unexplained += 1
                print(wrong, told, case.image, case.arms)
            count(counts, case, told)
            firsts[named(told.first)] += 1
    print(f"{counts['subsets']} subsets were judged; {counts['certified']} texts have certificates;")
    print(f"with all words and no answer: {dict(firsts.most_common())}")
    print(f"{counts['accepted']} accepted under some terms, {counts['proper']} of them with answers or some words;")
    print(f"differences: {dict(found)}")
    explained = ", each explained" if not unexplained else ""
    print(f"{sum(firsts.values())} cases, {sum(found.values())} differences{explained}")
    return 1 if unexplained else 0


if __name__ == "__main__":
    start(main, __doc__)
