"""Hunts: one call, interrupted in every cycle, alone and in pairs, for a difference between secrets."""
from __future__ import annotations

import hashlib
import json
import os
from collections.abc import Iterable, Iterator
from dataclasses import dataclass, field
from itertools import islice
from typing import Any

from .attack import BEFORE, BEHIND, CALL_BEGINS, Attack, Plan, Target, plans_of
from .pool import Client, Progress, retried, same_program, spread
from .program import program_digest
from .store import Of, Row, Store
from .trace import Trace


@dataclass(frozen=True)
class Found:
    """A plan after which two secrets differ: the number of the secret, the first line (from 1), and that line of the first secret
    and of this one."""

    plan: Plan
    secret: int
    line: int
    rows: tuple[str, str]


@dataclass
class Hunted:
    """What a hunt tried on a target: the attack, the span of cycles, the plans in their order, and those that tell secrets apart."""

    target: Target
    attack: Attack
    first: int
    last: int
    plans: list[Plan] = field(default_factory=list)
    found: list[Found] = field(default_factory=list)

    def __bool__(self) -> bool:
        """Whether some plan tells secrets apart."""
        return bool(self.found)


def judged(attack: Attack, plan: Plan, cycles: int) -> tuple[str, str]:
    """The SHA-256 of the first secret's trace, and as JSON what differs, or nothing."""
    texts = retried(lambda: attack.runs(plan, cycles))
    digest = hashlib.sha256(texts[0]).hexdigest()
    secret = next((n for n, text in enumerate(texts) if text != texts[0]), None)
    if secret is None:
        return digest, "null"
    one, other = (Trace(texts[n].decode("ascii")) for n in (0, secret))
    line = one.difference(other) or 0
    rows = [(trace.text.splitlines() + [""] * line)[line - 1] or "no more line" for trace in (one, other)]
    return digest, json.dumps([secret, line, rows])


def work(attack: Attack, image: str, plans: list[Plan], cycles: int, program: str) -> list[Row]:
    """The rows of a batch, in whatever process."""
    same_program(program)
    return [Row(image, plan.first or 0, json.dumps(plan), *judged(attack, plan, cycles)) for plan in plans]


def found_of(row: Row) -> Found | None:
    """What a row found."""
    told: Any = json.loads(row.observed)
    return None if told is None else Found(Plan(*json.loads(row.schedule)), told[0], told[1], (told[2][0], told[2][1]))


def hunt(targets: Iterable[Target], *, single: bool = False, handler: str | None = None, first: bool = False, cycles: int = 500,
         client: Client = None, jobs: int | None = None, batch: int = 16, store: str | os.PathLike[str] = ":memory:",
         progress: bool | None = None) -> list[Hunted]:
    """Attacks each target: an interrupt in each cycle of its call, by line and by timer, alone and in pairs.

    At most `cycles` cycles of a call are interrupted. `single` leaves out the pairs, `handler` takes one handler alone, and `first`
    ends at the first difference. Runs go where those of `sweep` go, and rows are kept as there.
    """
    return [one_target(target, (single, handler), first, cycles, client, jobs, batch, Store(store), progress) for target in targets]


def one_target(target: Target, ways: tuple[bool, str | None], first: bool, most: int, client: Client, jobs: int | None,
               batch: int, store: Store, progress: bool | None) -> Hunted:
    """The hunt on one target."""
    attack = Attack.of(target)
    begin, over = CALL_BEGINS - BEFORE, attack.over(target) + BEHIND
    last = min(over, begin + most)
    done = Hunted(target, attack, begin, last)
    of, image = Of(program_digest(), over, "hunt"), attack.digest
    told = Progress(sum(1 for _ in plans_of(begin, last, *ways)), progress)

    def tasks() -> Iterator[tuple[Attack, str, list[Plan], int, str]]:
        plans = (plan for plan in plans_of(begin, last, *ways) if not store.has(of, image, plan.first or 0, json.dumps(plan)))
        while some := list(islice(plans, batch)):
            yield attack, image, some, over, of.program

    for made in spread(work, tasks(), client, jobs):
        store.put(of, made)
        told.add(len(made))
        if first and any(found_of(row) for row in made):
            break
    told.close()
    rows = {Plan(*json.loads(row.schedule)): row for row in store.rows(of, [image])}
    done.plans = [plan for plan in plans_of(begin, last, *ways) if plan in rows]
    done.found = [found for plan in done.plans if (found := found_of(rows[plan])) is not None]
    return done
