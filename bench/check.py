#!/usr/bin/env python3
"""Times `check` on the texts of modules that clang compiled: random functions with loops, calls and data, of 2, 16 and 55 KiB.

    python3 bench/check.py PROGRAM [RUNS]

PROGRAM is the built `sancus` (crates/sm_main/out/sm_main). A line for each text: its bytes, the least and the middle
processor time of RUNS (10) runs, and the verdict.
"""
import os
import random
import subprocess
import sys
import tempfile

# Name, functions, statements a function.
TEXTS = (("2K", 14, 20), ("16K", 70, 30), ("55K", 170, 46))
NUMBERS = 48
ENTRIES = 4
LAYOUT = """version = 2
key = "0f0e0d0c0b0a09080706050403020100"
handler_sp = 0x1600
text = [0x0400, 0x0600]
data = [0x0200, 0x0300]
[vectors]
v15 = "_start"
[[module]]
name = "big"
vendor = 7
text = [0x0800, 0xfc00]
data = [0xfc00, 0xff00]
stack = 64
entries = ["e0", "e1", "e2", "e3"]
boot = 5
"""
START = "    .text\n    .globl _start\n_start:\n    mov #0x0200, r1\n    jmp _start\n"


def statement(draw):
    """One statement over the locals a, b, c and the module's numbers; one in five is a loop."""
    x, y, z = (draw.choice("abc") for _ in range(3))
    operator, kind = draw.choice(["+", "-", "^", "&", "|"]), draw.randrange(5)
    kept = f'__asm__ volatile("":"+r"({x}));'
    if kind == 0:
        return f"{x}={y}{operator}{z};{kept}"
    if kind == 1:
        return f"{number(draw)}={x}{operator}{draw.randrange(65536)}u;"
    if kind == 2:
        return f"{x}^={number(draw)};"
    if kind == 3:
        return f"{x}=({y}>>1){operator}{z};{kept}"
    return f"for(unsigned k=0;k<{draw.randrange(3, 12)};k++){{{x}=({x}<<1)^{y};{number(draw)}={x};{kept}}}"


def number(draw):
    return f"s{draw.randrange(NUMBERS)}"


def source(functions, statements):
    """A module in C whose functions call one of the six before them, with four entries."""
    draw = random.Random(functions)
    lines = ['#define TEXT __attribute__((section(".sm.big.text"), noinline))', '#define DATA __attribute__((section(".sm.big.data")))']
    lines += [f"static DATA volatile unsigned s{k} = {draw.randrange(65536)}u;" for k in range(NUMBERS)]
    for index in range(functions):
        lines.append(f"TEXT static void f{index}(void) {{ unsigned a={number(draw)}, b={number(draw)}, c={number(draw)};")
        lines += [statement(draw) for _ in range(statements)]
        lines.append(f"{number(draw)}=a^b^c;")
        if index and draw.random() < 0.8:
            lines.append(f"f{draw.randrange(max(0, index - 6), index)}();")
        lines.append("}")
    for entry in range(ENTRIES):
        calls = "".join(f"f{index}();" for index in range(functions) if index % ENTRIES == entry and draw.random() < 0.5)
        lines.append(f'__attribute__((section(".sm.big.text"))) void e{entry}(void) {{{calls}}}')
    return "\n".join(lines) + "\n"


def image(program, folder, functions, statements):
    """The linked image of such a module, and the bytes of its text."""
    files = {"big.c": source(functions, statements), "start.s": START, "layout.toml": LAYOUT}
    for name, text in files.items():
        with open(os.path.join(folder, name), "w", encoding="ascii") as it:
            it.write(text)
    compiler = ["clang", "--target=msp430", "-c"]
    subprocess.run([*compiler, "-ffreestanding", "-fno-builtin", "-Os", "big.c", "-o", "big.o"], cwd=folder, check=True)
    subprocess.run([*compiler, "start.s", "-o", "start.o"], cwd=folder, check=True)
    linked = subprocess.run([program, "link", "layout.toml", "start.o", "big.o"], cwd=folder, check=True, capture_output=True, text=True).stdout
    path = os.path.join(folder, "image")
    with open(path, "w", encoding="ascii") as it:
        it.write(linked)
    sizes = subprocess.run(["llvm-size", "-A", "big.o"], cwd=folder, check=True, capture_output=True, text=True).stdout
    return path, next(int(line.split()[1]) for line in sizes.splitlines() if line.startswith(".sm.big.text "))


def main():
    program = os.path.abspath(sys.argv[1] if len(sys.argv) > 1 else "crates/sm_main/out/sm_main")
    runs = int(sys.argv[2]) if len(sys.argv) > 2 else 10
    for name, functions, statements in TEXTS:
        with tempfile.TemporaryDirectory() as folder:
            path, size = image(program, folder, functions, statements)
            times = []
            for _ in range(runs):
                run = subprocess.Popen([program, "check", path, "1"], stdout=subprocess.PIPE, text=True)
                said = run.stdout.read()
                used = os.wait4(run.pid, 0)[2]
                times.append(1000 * (used.ru_utime + used.ru_stime))
            times.sort()
            print(f"{name:4} {size:6} bytes {times[0]:7.1f} ms {times[runs // 2]:7.1f} ms  {said.strip()}", flush=True)


if __name__ == "__main__":
    main()
