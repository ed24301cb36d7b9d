#!/usr/bin/env python3
"""Runs a command and tells the processor minutes that the prover took below it, crate by crate.

    python3 bench/minutes.py COMMAND..        for example: bench/record minutes python3 bench/minutes.py rt ci

A line for each crate, dearest first: its own proof, its tests, its must-fail edits (with the check of the crate that they begin with), the rest
(compiling and running), all of them, and the most memory of one check. What took less than a second may be missed.
"""
import os
import re
import signal
import subprocess
import sys
import time

TICK = os.sysconf("SC_CLK_TCK")
KINDS = ["proof", "tests", "edits", "rest"]


def looked_at(pid):
    """The processor seconds of a process with what it waited for, its start, its memory in MiB, its words and folder."""
    with open(f"/proc/{pid}/stat") as it:
        fields = it.read().rpartition(")")[2].split()
    with open(f"/proc/{pid}/status") as it:
        memory = re.search(r"VmHWM:\s+(\d+)", it.read())
    with open(f"/proc/{pid}/cmdline") as it:
        words = it.read().split("\0")
    spent = sum(map(int, fields[11:15])) / TICK
    return spent, fields[19], int(memory[1]) // 1024 if memory else 0, words, os.readlink(f"/proc/{pid}/cwd")


def kind_of(words, folder):
    if "rt-edit" in folder:
        return "edits"
    if "--test" in words:
        return "tests"
    return "proof" if words[1:2] in (["check"], ["build"], ["verdict"]) else "rest"


def is_below(pid, top):
    """Whether a process was begun by another, or by what that began."""
    while pid not in (top, 0, 1):
        with open(f"/proc/{pid}/stat") as it:
            pid = int(it.read().rpartition(")")[2].split()[1])
    return pid == top


def look(found, top):
    for pid in filter(str.isdigit, os.listdir("/proc")):
        try:
            with open(f"/proc/{pid}/comm") as it:
                if it.read().strip() != "rattle":
                    continue
            spent, start, memory, words, folder = looked_at(pid)
            if (pid, start) not in found and not is_below(int(pid), top):
                continue
        except (OSError, IndexError):
            continue
        if "--crate-name" not in words:
            continue
        crate = words[words.index("--crate-name") + 1]
        most = max(memory, found.get((pid, start), (0, 0, 0, 0))[3])
        found[pid, start] = crate, kind_of(words, folder), spent, most


def table(found):
    crates = {}
    for crate, kind, spent, memory in found.values():
        row = crates.setdefault(crate, dict.fromkeys(KINDS, 0) | {"memory": 0})
        row[kind] += spent
        row["memory"] = max(row["memory"], memory)
    whole = lambda row: sum(row[it] for it in KINDS)
    print(f"{'crate':18}" + "".join(f"{it:>8}" for it in [*KINDS, "all", "MiB"]))
    for crate, row in sorted(crates.items(), key=lambda it: -whole(it[1])):
        print(f"{crate:18}" + "".join(f"{row[it] / 60:8.1f}" for it in KINDS) + f"{whole(row) / 60:8.1f}{row['memory']:8}")
    sums = [sum(row[it] for row in crates.values()) / 60 for it in KINDS]
    print(f"{'all':18}" + "".join(f"{it:8.1f}" for it in sums) + f"{sum(sums):8.1f}")


def main():
    found, begun = {}, time.time()
    with subprocess.Popen(sys.argv[1:]) as running:
        # one that is ended early has its table too
        signal.signal(signal.SIGTERM, lambda *_: running.terminate())
        while running.poll() is None:
            look(found, running.pid)
            time.sleep(0.5)
    table(found)
    print(f"{(time.time() - begun) / 60:.1f} minutes by the clock, status {running.returncode}")
    sys.exit(running.returncode)


main()
