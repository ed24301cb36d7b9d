"""What a hunt is told in: which plans differ, and what the interrupt met."""
from __future__ import annotations

from dataclasses import replace

from .attack import ALONE, CALL_BEGINS, Plan
from .hunting import Found, Hunted
from .image import Image
from .terms import Arms


class Places:
    """The instruction under way in a cycle. A module's registers are not shown, so it is asked of the same memory without
    modules."""

    def __init__(self, image: Image, cycles: int) -> None:
        self.image = replace(image, modules=())
        lines = self.image.monitor("regs\n" + "go 1\nregs\n" * cycles)
        counters = [int(line.split(" ")[3], 16) for line in lines if line.startswith("regs ")]
        self.begun: list[tuple[int, int]] = []
        for cycle, (now, then) in enumerate(zip(counters, counters[1:])):
            self.begun.append((now, cycle) if now != then or not self.begun else self.begun[-1])

    def at(self, cycle: int) -> str:
        """The instruction under way in a cycle, and which of its cycles that is."""
        if cycle >= len(self.begun):
            return "not known"
        address, begun = self.begun[cycle]
        parts = self.image.dis(address, address + 2)[0].split(" ")[1:]
        while len(parts) > 1 and len(parts[0]) == 4 and not set(parts[0]) - set("0123456789abcdef"):
            parts.pop(0)
        return f"{address:04x} {' '.join(parts)}, its cycle {cycle - begun + 1}"


def parting(names: list[str], places: list[Places]) -> str:
    """Where the instructions of two images part, by themselves: the cycle, and the last instruction that both did."""
    for other in range(1, len(places)):
        ways = list(zip(places[0].begun, places[other].begun))
        at = next((cycle for cycle, (one, two) in enumerate(ways) if one != two), None)
        if at is not None:
            pair = f"{names[0]} and {names[other]}"
            return f"by themselves {pair} go on differently from cycle {at} on, after {places[0].at(at - 1)}"
    return "by themselves all do the same instructions in the same cycles"


def verdict(done: Hunted, arms: Arms | None) -> str:
    """What the program says of the module."""
    if done.target.module is None:
        return "no module: nothing is claimed of it"
    image = next(iter(done.target.images.values()))
    said = image.balance(done.target.module, arms) if arms else image.check(done.target.module)
    return f"{'balance' if arms else 'check'}: {said.answer}" + (f" {said.address:04x} {said.reason}" if said.address is not None else "")


def told(names: list[str], places: list[Places], one: Found) -> list[str]:
    """The first line that differs, and what the interrupt met."""
    pair = (0, one.secret)
    lines = [f"  {one.plan}", *(f"    {names[n]}: {row}" for n, row in zip(pair, one.rows))]
    if one.plan.first is not None:
        lines += [f"    in cycle {one.plan.first} {names[n]} is at {places[n].at(one.plan.first)}" for n in pair]
    return lines


def report(done: Hunted, arms: Arms | None = None) -> list[str]:
    """A line for each kind and handler, and the first plan of each that tells the secrets apart."""
    names = list(done.target.images)
    places = [Places(image, done.last) for image in done.attack.images(ALONE)]
    lines = [f"{', '.join(names)}: called at {done.attack.entry:04x}; {verdict(done, arms)}",
             f"the call begins in cycle {CALL_BEGINS}; interrupts in each cycle from {done.first} to {done.last}",
             parting(names, places)]
    groups: dict[str, list[Plan]] = {}
    for plan in done.plans:
        groups.setdefault(plan.group, []).append(plan)
    for group, plans in groups.items():
        mine = [one for one in done.found if one.plan.group == group]
        lines.append(f"{group}: {len(plans)} plans, {len(mine)} differ")
        lines += told(names, places, mine[0]) if mine else []
    return [*lines, f"{len(done.plans) * len(names)} runs, {len(done.plans)} plans, {len(done.found)} differ"]
