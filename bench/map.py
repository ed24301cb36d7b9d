#!/usr/bin/env python3
"""Times `map` beside `link` on 64 objects with 256,000 names.

    python3 bench/map.py [PROGRAM LAB [RUNS]]

Each name is defined in a section that is loaded, and each stands in one relocation. The least of RUNS (3) counts,
taken in turn; at last the machine's load.
"""
import os
import sys
import tempfile

sys.path.insert(0, os.path.dirname(os.path.abspath(__file__)))
from elf430 import Object  # noqa: E402
from link import HUGE_PAGES, LAYOUT, least, shown, timed  # noqa: E402


def objects():
    """64 objects, 256,000 global names in all, and a relocation for each."""
    for n in range(64):
        made = Object()
        text = made.section(".text", data=bytes(4))
        for k in range(4000):
            made.rela(text, 0, made.symbol(f"name_{n:02}_{k:04}", text))
        yield made.write()


def main():
    program = sys.argv[1] if len(sys.argv) > 1 else "crates/sm_main/out/sm_main"
    lab = sys.argv[2] if len(sys.argv) > 2 else "crates/lab_main/out/lab_main"
    runs = int(sys.argv[3]) if len(sys.argv) > 3 else 3
    with tempfile.TemporaryDirectory() as folder:
        paths = [os.path.join(folder, f"{n}.o") for n in range(64)]
        for path, data in zip(paths, objects()):
            with open(path, "wb") as file:
                file.write(data)
        layout = os.path.join(folder, "layout.toml")
        with open(layout, "w") as file:
            file.write(LAYOUT)
        linked, mapped = [], []
        for _ in range(runs):
            linked.append(timed([program, "link", layout, *paths], {"GLIBC_TUNABLES": HUGE_PAGES}))
            mapped.append(timed([lab, "map", layout, *paths], {"GLIBC_TUNABLES": HUGE_PAGES}))
    print(f"link {shown(least(linked))}")
    print(f"map  {shown(least(mapped))}")
    print(f"ratio of processor time {least(mapped)[1] / least(linked)[1]:.2f}")
    print("load", *os.getloadavg())


if __name__ == "__main__":
    main()
