#!/usr/bin/env python3
"""Counts the host instructions that `balance` takes for an instruction of an arm.

    python3 bench/balance.py PROGRAM [COUNT] [KIND..]

PROGRAM is the built `sancus` (crates/sm_main/out/sm_main), run under valgrind's callgrind, so that noise of the machine does not matter. COUNT (2,000) equal
instructions make the arm of a branch that is met under thousands of lists of return addresses, as in hostile/worst.py. A line for each kind: instructions in all,
without those of the same branch with arms of next to nothing, and for each instruction of an arm that one walk under each list meets.
"""
import os
import re
import subprocess
import sys
import tempfile

sys.path.insert(0, os.path.join(os.path.dirname(os.path.abspath(__file__)), "..", "hostile"))
import worst  # noqa: E402

# Both arms are walked under each list.
WALKED = 2 * worst.CALLS * worst.CALLS
KINDS = {
    "sums": lambda count: worst.balance_of_addresses(count, 0x5605, 1),
    "moves": lambda count: worst.balance_of_addresses(count, 0x4605, 1),
    "reads": lambda count: worst.balance_of_addresses(count, 0x5425, 2),
    "shifts": lambda count: worst.balance_of_addresses(count, 0x1124, 3),
    "places": worst.balance_of_places,
    "wants": lambda count: worst.balance_of_wants(count, 0x5606, 1),
}


def counted(program, folder, made):
    """Host instructions of one run."""
    paths = [os.path.join(folder, name) for name in ("image", "arms")]
    for path, text in zip(paths, made):
        with open(path, "w", encoding="ascii") as it:
            it.write(text)
    told = os.path.join(folder, "told")
    words = ["valgrind", "--tool=callgrind", f"--callgrind-out-file={told}", program, "balance", paths[0], "1", paths[1]]
    said = subprocess.run(words, capture_output=True, text=True, check=False).stderr
    return int(re.search(r"Collected : (\d+)", said).group(1))


def main():
    program = sys.argv[1] if len(sys.argv) > 1 else "crates/sm_main/out/sm_main"
    count = int(sys.argv[2]) if len(sys.argv) > 2 else 2_000
    with tempfile.TemporaryDirectory() as folder:
        for kind in sys.argv[3:] or KINDS:
            make = KINDS[kind]
            whole = counted(program, folder, make(count))
            arms = whole - counted(program, folder, make(1))
            print(f"{kind:8} {whole:15,} {arms:15,} {arms / (WALKED * (count - 1)):7.1f}", flush=True)


if __name__ == "__main__":
    main()
