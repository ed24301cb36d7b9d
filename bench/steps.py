#!/usr/bin/env python3
"""Times `steps` beside `image`, on the programs of programs/.

    python3 bench/steps.py [PROGRAM LAB [CYCLES [RUNS]]]

A line for each program: the least time of RUNS (3), taken in turn, for CYCLES (1000000), and how much `steps` writes.
"""
import os
import subprocess
import sys

HERE = os.path.dirname(os.path.abspath(__file__))
sys.path.insert(0, HERE)
from link import least, timed  # noqa: E402
from speed import NAMES  # noqa: E402


def main():
    program = sys.argv[1] if len(sys.argv) > 1 else "crates/sm_main/out/sm_main"
    lab = sys.argv[2] if len(sys.argv) > 2 else "crates/lab_main/out/lab_main"
    cycles = sys.argv[3] if len(sys.argv) > 3 else "1000000"
    runs = int(sys.argv[4]) if len(sys.argv) > 4 else 3
    for name in NAMES:
        words = [os.path.join(HERE, "programs", f"{name}.img"), "-", cycles]
        run, walked = [], []
        for _ in range(runs):
            run.append(timed([program, "image", *words], {}))
            walked.append(timed([lab, "steps", *words], {}))
        written = len(subprocess.run([lab, "steps", *words], capture_output=True).stdout)
        print(f"{name}: steps {least(walked)[0]:.2f} s, {least(walked)[1]:.2f} s of processor; "
              f"image {least(run)[1]:.2f} s; {written / 2**20:.1f} MiB are written", flush=True)


if __name__ == "__main__":
    main()
