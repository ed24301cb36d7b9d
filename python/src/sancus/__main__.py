"""python -m sancus sweep|hunt: many runs from a shell."""
from __future__ import annotations

import argparse
import os

from . import Arms, Hunted, Image, Target, hunt, sweep
from .command import start
from .pool import Client
from .report import report


def parser() -> argparse.ArgumentParser:
    """The words of both commands."""
    said = argparse.ArgumentParser(prog="python -m sancus", description="Runs images under many interrupts, and compares their traces.")
    commands = said.add_subparsers(dest="command", required=True)
    sweeps = commands.add_parser("sweep", help="each image with a pulse of line 0 in each cycle of a span")
    sweeps.add_argument("images", nargs="+")
    sweeps.add_argument("--pulses", nargs=2, type=int, metavar=("FROM", "TO"), required=True)
    sweeps.add_argument("--limit", type=int, required=True, help="the cycles of a run")
    hunts = commands.add_parser("hunt", help="one call, interrupted in each cycle, alone and in pairs")
    add_hunt(hunts)
    for one in (sweeps, hunts):
        add_places(one)
    return said


def add_hunt(said: argparse.ArgumentParser) -> None:
    """The words of a hunt."""
    said.add_argument("images", nargs="+", help="two or more, which differ in a secret alone")
    said.add_argument("--module", type=int, help="the module that is called")
    said.add_argument("--arms", help="certificates for its branches: `balance` is asked in place of `check`")
    said.add_argument("--code", nargs=2, metavar=("START", "BACK"), help="plain code, and where it goes back to")
    said.add_argument("--single", action="store_true", help="single interrupts alone")
    said.add_argument("--handler", help="this handler alone, as a report names it")
    said.add_argument("--first", action="store_true", help="end at the first difference")
    said.add_argument("--cycles", type=int, default=500, help="at most so many cycles of the call are interrupted")


def add_places(said: argparse.ArgumentParser) -> None:
    """Where runs go and are kept."""
    said.add_argument("-j", type=int, help="processes side by side, as many as processors where it is left out")
    said.add_argument("--scheduler", help="the address of a dask.distributed scheduler, whose workers take the runs")
    said.add_argument("--store", default=":memory:", help="a file of rows, which a second call goes on from")


def client_of(words: argparse.Namespace) -> Client:
    """The Client of the scheduler that is named, or None."""
    if words.scheduler is None:
        return None
    import distributed
    made: Client = distributed.Client
    return made(words.scheduler)


def target_of(words: argparse.Namespace) -> Target:
    """The target of a hunt. ValueError is raised where the words name none."""
    images = {os.path.basename(path): Image.load(path) for path in words.images}
    code = (int(words.code[0], 16), int(words.code[1], 16)) if words.code else None
    return Target(images, words.module, code)


def hunted(words: argparse.Namespace) -> Hunted:
    """The hunt that the words name."""
    found, = hunt([target_of(words)], single=words.single, handler=words.handler, first=words.first, cycles=words.cycles,
                  client=client_of(words), jobs=words.j, store=words.store)
    return found


def swept(words: argparse.Namespace) -> tuple[list[str], bool]:
    """The lines of a sweep, and whether images differ: what each pulse shows, and the sums."""
    images = {path: Image.load(path) for path in words.images}
    first, last = words.pulses
    results = sweep(images, range(first, last + 1), limit=words.limit, client=client_of(words), jobs=words.j, store=words.store)
    other = set(results.differ())
    lines = [f"pulse {row['pulse']} {row['image']} latency {row['latency']} end {row['end']}" for row in results]
    return [*lines, f"end {last + 1 - first - len(other)} same {len(other)} different"], bool(other)


def main(words: list[str]) -> int:
    """Status 1 says that some traces differ."""
    said = parser().parse_args(words)
    try:
        if said.command == "sweep":
            lines, differ = swept(said)
        else:
            found = hunted(said)
            lines, differ = report(found, Arms.load(said.arms) if said.arms else None), bool(found)
    except ValueError as error:
        parser().error(str(error))
    print("\n".join(lines))
    return int(differ)


if __name__ == "__main__":
    start(main, __doc__)
