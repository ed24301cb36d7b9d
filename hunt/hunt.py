#!/usr/bin/env python3
"""hunt.py IMAGE IMAGE.. --module ID [--arms FILE], or --code START BACK: a hunt of python -m sancus, with a picture.

Looks for a difference between traces of images that differ in a secret alone, interrupted in every cycle of a call. Each image is
run by its own outside until that is about to begin the call. From there on an attacking outside makes the call once a run: with an
interrupt in each cycle, alone and in pairs, by line and by timer, with handlers of several lengths. Status 1 says that some traces
differ. --name NAME writes hunt/results/NAME.txt and NAME.svg as well."""
import argparse
import os
import sys

HERE = os.path.dirname(os.path.realpath(__file__))
sys.path.insert(0, os.path.join(HERE, "../python/src"))
from picture import picture_of
from sancus.__main__ import add_hunt, add_places, hunted
from sancus.command import start, write_new
from sancus.report import report
from sancus.terms import Arms


def main(words):
    said = argparse.ArgumentParser(description=__doc__.split("\n", maxsplit=1)[0])
    add_hunt(said)
    add_places(said)
    said.add_argument("--name", help="write hunt/results/NAME.txt and NAME.svg as well")
    words = said.parse_args(words)
    found = hunted(words)
    lines = report(found, Arms.load(words.arms) if words.arms else None)
    print("\n".join(lines))
    if words.name:
        picture = picture_of(found.plans, [one.plan for one in found.found], lines[0])
        for suffix, text in ((".txt", "\n".join([*lines, ""])), (".svg", picture)):
            write_new(os.path.join(HERE, "results", words.name + suffix), text.encode())
    return bool(found)


if __name__ == "__main__":
    start(main, __doc__)
