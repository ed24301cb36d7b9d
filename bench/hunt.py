#!/usr/bin/env python3
"""hunt.py [RUNS [WORKERS..]]: runs a second of a hunt: a plain loop, processes, and a LocalCluster.

A run is one image under one plan. The plans are the first of the hunt on examples/channel's module, so many that RUNS (100,000)
runs come of them, over and over; a LocalCluster takes RUNS runs, the plain loop and processes a tenth of them. WORKERS are 1 2 4 where none is
given. The plain loop makes each image and schedule, writes both to files in /dev/shm and calls the program. A line for each: runs a
second, and that as a part of workers times the plain loop. The overhead of a task is that of an empty one on the cluster."""
import itertools
import os
import subprocess
import sys
import tempfile
import time

sys.path.insert(0, os.path.join(os.path.dirname(os.path.realpath(__file__)), "../python/src"))
from sancus import Image, SancusError, Target
from sancus.attack import BEFORE, BEHIND, CALL_BEGINS, Attack, length_of, plans_of
from sancus.command import start
from sancus.hunting import work
from sancus.pool import spread
from sancus.program import find, program_digest

CHANNEL = os.path.join(os.path.dirname(os.path.realpath(__file__)), "../examples/channel")
BATCH = 16


def plain_loop(attack, plans, cycles):
    """Runs a second, one after another in this process."""
    begun, runs = time.monotonic(), 0
    with tempfile.TemporaryDirectory(dir="/dev/shm") as room:
        for plan, image in ((plan, image) for plan in plans for image in attack.images(plan)):
            runs += 1
            words = [os.path.join(room, f"{runs}.img"), os.path.join(room, f"{runs}.txt")]
            for path, text in zip(words, (image.text, attack.schedule(plan).text)):
                with open(path, "w", encoding="ascii") as file:
                    file.write(text)
            done = subprocess.run([find(), "image", *words, str(cycles + 2 * (12 + length_of(plan.handler)))], capture_output=True)
            if done.returncode not in (0, 3):
                raise SancusError(done.stderr.decode())
            for path in words:
                os.remove(path)
    return runs / (time.monotonic() - begun)


def batches(plans):
    while some := list(itertools.islice(plans, BATCH)):
        yield some


def spread_out(attack, plans, cycles, client, jobs):
    """Runs a second through the package."""
    tasks = ((attack, "attack", some, cycles, program_digest()) for some in batches(plans))
    begun = time.monotonic()
    runs = sum(len(rows) for rows in spread(work, tasks, client, jobs)) * len(attack.stood)
    return runs / (time.monotonic() - begun)


def overhead(client):
    """Milliseconds of an empty task."""
    begun = time.monotonic()
    client.gather(client.map(int, range(1000), pure=False))
    return time.monotonic() - begun


def main(words):
    import distributed
    runs, workers = int(words[0]) if words else 100_000, [int(word) for word in words[1:]] or [1, 2, 4]
    target = Target({str(n): Image.load(os.path.join(CHANNEL, f"module_{n}.img")) for n in (0, 1)}, module=1)
    attack = Attack.of(target)
    over = attack.over(target) + BEHIND
    every = list(plans_of(CALL_BEGINS - BEFORE, over))

    def plans(number):
        return itertools.islice(itertools.cycle(every), number // len(attack.stood))

    one = plain_loop(attack, plans(runs // 10), over)
    print(f"plain loop: {one:.0f} runs a second", flush=True)
    for jobs in workers:
        rate = spread_out(attack, plans(runs // 10), over, None, jobs)
        print(f"{jobs} processes: {rate:.0f} runs a second, {rate / jobs / one:.2f} of linear", flush=True)
        with distributed.LocalCluster(n_workers=jobs, threads_per_worker=1, dashboard_address=None) as cluster, \
                distributed.Client(cluster) as client:
            empty = overhead(client)
            rate = spread_out(attack, plans(runs), over, client, None)
        print(f"LocalCluster of {jobs}: {rate:.0f} runs a second, {rate / jobs / one:.2f} of linear; an empty task {empty:.2f} ms", flush=True)


if __name__ == "__main__":
    start(main, __doc__)
