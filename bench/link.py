#!/usr/bin/env python3
"""Times the linker beside ld.lld on objects that are made to be slow.

    python3 bench/link.py PROGRAM [RUNS] [CASE..]

PROGRAM is called as `PROGRAM link LAYOUT OBJ..`, with the setting for huge pages that `sancus` gives it, unless
GLIBC_TUNABLES is set. A line for each case: seconds, seconds of processor and MiB of the program, of ld.lld, the two
ratios, and the MiB of the files; at last the machine's load. The least of RUNS (3) counts, taken in turn, so that both
see the same noise.
"""
import os
import shutil
import subprocess
import sys
import tempfile
import time

sys.path.insert(0, os.path.dirname(os.path.abspath(__file__)))
from elf430 import ABS, ALLOC, EXEC, GLOBAL, WEAK, Object  # noqa: E402

LIMIT = 1 << 20
# As in the launcher.
HUGE_PAGES = "glibc.malloc.hugetlb=1:glibc.malloc.mmap_threshold=33554432"
LAYOUT = """version = 1
key = "00000000000000000000000000000000"
handler_sp = 0xff00
text = [0x0200, 0x8000]
data = [0x8000, 0xff00]
"""


def names():
    """64 objects, 256,000 global names in all, and a relocation for each."""
    for n in range(64):
        o = Object()
        t = o.section(".text", data=bytes(4))
        for k in range(4000):
            o.rela(t, 0, o.symbol(f"name_{n:02}_{k:04}", ABS, k))
        yield o.write()


def long_name():
    """64 objects, each with one name of almost a MiB that all its relocations use."""
    for n in range(64):
        o = Object()
        t = o.section(".text", data=bytes(4))
        s = o.symbol("a" * 1_000_000, ABS, 1, binding=WEAK)
        for _ in range(3000):
            o.rela(t, 0, s)
        yield o.write()


def sections():
    """60,000 sections in three objects."""
    for n in range(3):
        o = Object()
        for _ in range(20_000):
            o.section(".t", data=b"", align=2)
        yield o.write()


def suffixes(files, count, size):
    """Weak names that are all suffixes of one string."""
    for _ in range(files):
        o = Object()
        o.section(".text", data=bytes(4))
        step = size // count
        whole = "a" * size
        first = o.symbol(whole, ABS, 1, binding=WEAK)
        data = bytearray(o.write_with_suffixes(first, count, step))
        yield bytes(data)


def suffixes_one():
    """30,000 names that are suffixes of one string of 480,000 bytes, in one object."""
    return suffixes(1, 30_000, 480_000)


def suffixes_four():
    """The same object four times."""
    return suffixes(4, 30_000, 480_000)


def equal_names():
    """30,000 symbols in an object that all have one name of 500,000 bytes."""
    o = Object()
    o.section(".text", data=bytes(4))
    yield o.write_with_suffixes(o.symbol("a" * 500_000, ABS, 1, binding=WEAK), 30_000, 0)


def full():
    """64 objects of a MiB each, of which nothing is loaded but four bytes."""
    for n in range(64):
        o = Object()
        o.section(".text", data=bytes(4))
        o.section(".debug", flags=0, data=bytes(LIMIT - 2048), align=1)
        yield o.write()


def tables():
    """5,000 tables of relocations over one list of 10,000 entries."""
    o = Object()
    t = o.section(".text", data=bytes(4))
    for _ in range(10_000):
        o.rela(t, 0, 0)
    yield o.write(tables=5000)


CASES = {
    "names": names,
    "long_name": long_name,
    "sections": sections,
    "suffixes_one": suffixes_one,
    "suffixes_four": suffixes_four,
    "equal_names": equal_names,
    "full": full,
    "tables": tables,
}


def timed(words, settings):
    """Seconds, seconds of processor, MiB and exit status of a run with these variables more."""
    start = time.perf_counter()
    null = subprocess.DEVNULL
    child = subprocess.Popen(words, stdout=null, stderr=null, env={**settings, **os.environ})
    _, status, usage = os.wait4(child.pid, 0)
    child.returncode = os.waitstatus_to_exitcode(status)
    return time.perf_counter() - start, usage.ru_utime + usage.ru_stime, usage.ru_maxrss / 1024, child.returncode


def least(runs):
    """The least seconds and the least seconds of processor of the runs, and the rest of the quickest."""
    return min(runs)[0], min(run[1] for run in runs), *min(runs)[2:]


def shown(run):
    return f"{run[0]:8.3f} s {run[1]:8.3f} s {run[2]:7.1f} MiB status {run[3]}"


def measure(program, lld, folder, case, runs):
    layout = os.path.join(folder, "layout.toml")
    with open(layout, "w") as f:
        f.write(LAYOUT)
    paths, total = [], 0
    for n, data in enumerate(CASES[case]()):
        assert len(data) <= LIMIT, (case, len(data))
        paths.append(os.path.join(folder, f"{case}{n}.o"))
        total += len(data)
        with open(paths[-1], "wb") as f:
            f.write(data)
    ours, theirs = [], []
    for _ in range(runs):
        ours.append(timed([*program.split(), "link", layout, *paths], {"GLIBC_TUNABLES": HUGE_PAGES}))
        if lld:
            theirs.append(timed([lld, "-Ttext=0x200", "-o", os.path.join(folder, "out.elf"), *paths], {}))
    own, other = least(ours), least(theirs) if theirs else None
    line = f"{case:14} {shown(own)}"
    if other:
        line += f" | lld {shown(other)} | ratios {own[0] / other[0]:6.2f} {own[1] / other[1]:6.2f}"
    print(f"{line} | files {total / LIMIT:5.1f} MiB", flush=True)
    for path in paths:
        os.remove(path)


def main():
    program = sys.argv[1] if len(sys.argv) > 1 else "crates/sm_main/out/sm_main"
    runs = int(sys.argv[2]) if len(sys.argv) > 2 else 3
    lld = shutil.which("ld.lld")
    with tempfile.TemporaryDirectory() as folder:
        for case in sys.argv[3:] or CASES:
            measure(program, lld, folder, case, runs)
    print("load", *os.getloadavg())


if __name__ == "__main__":
    main()
