#!/usr/bin/env python3
"""Times the machine beside mspdebug's simulator, on programs that clang compiled (programs/; each ends in a jump to itself, with 0 in R4).

    python3 bench/speed.py [PROGRAM[,OTHER..] [RUNS [NAME..]]]

PROGRAM, and each OTHER in turn with it, is called as `PROGRAM image IMAGE - CYCLES`, mspdebug (0.22, Debian) as
`mspdebug -q sim`, once bare and once with its tracer. A line for each program, and each PROGRAM: the least processor time
of RUNS (3), taken in turn, in seconds; PROGRAM's part of each of mspdebug's; and, where valgrind is installed, host
instructions for each instruction of the program.
mspdebug has no modules and no timer of this machine: `module` is timed alone.
"""
import os
import re
import resource
import shutil
import subprocess
import sys
import tempfile

HERE = os.path.dirname(os.path.abspath(__file__))
NAMES = ["checksum", "sort", "tables", "search", "cipher", "calls", "module"]
MOST_CYCLES = 400_000_000
COUNTED_CYCLES = 200_000  # of a run by callgrind, less those of a run of 0 cycles


def memory(image):
    """The bytes by address that an image's rows give."""
    cells = {}
    for addr, row in re.findall(r"^at ([0-9a-f]{4}) ([0-9a-f]{32})$", image, re.M):
        cells.update({int(addr, 16) + k: byte for k, byte in enumerate(bytes.fromhex(row))})
    return cells


def intel_hex(cells):
    lines = []
    for row in sorted({addr & ~15 for addr in cells}):
        record = [16, row >> 8, row & 255, 0] + [cells.get(row + k, 0) for k in range(16)]
        lines.append(":" + "".join(f"{byte:02X}" for byte in record + [-sum(record) & 255]))
    return "\n".join(lines + [":00000001FF"]) + "\n"


def end_address(cells):
    """The address of `mov r12, r4` and `jmp $`, the last things that a program does."""
    word = lambda addr: cells.get(addr, 0) | cells.get(addr + 1, 0) << 8
    return next(addr + 2 for addr in sorted(cells) if word(addr) == 0x4C04 and word(addr + 2) == 0x3FFF)


def seconds(command, text=None):
    """The processor time of a command and what it prints."""
    before = resource.getrusage(resource.RUSAGE_CHILDREN)
    done = subprocess.run(command, input=text, capture_output=True, text=True)
    after = resource.getrusage(resource.RUSAGE_CHILDREN)
    return after.ru_utime + after.ru_stime - before.ru_utime - before.ru_stime, done.stdout


def cycles_to(program, image, end, folder):
    """How many cycles pass until the program stands at its end."""
    script = os.path.join(folder, "script.txt")
    with open(script, "w") as out:
        out.write(f"until {end:04x} {MOST_CYCLES}\n")
    text = seconds([program, "monitor", image, "-", script])[1]
    return int(re.search(rf"^end (\d+) outside {end:04x} (?:[0-9a-f]{{4}} ){{3}}0000 ", text, re.M)[1])


def host_instructions(program, image, cycles):
    text = subprocess.run(
        ["valgrind", "--tool=callgrind", "--callgrind-out-file=/dev/null", program, "image", image, "-", str(cycles)], capture_output=True, text=True
    ).stderr
    return int(re.search(r"Collected : (\d+)", text)[1])


def one(programs, name, runs, folder):
    image = os.path.join(HERE, "programs", name + ".img")
    with open(image) as it:
        cells = memory(it.read())
    end, loaded = end_address(cells), os.path.join(folder, name + ".hex")
    with open(loaded, "w") as out:
        out.write(intel_hex(cells))
    cycles = cycles_to(programs[0], image, end, folder)
    load = [f"load {loaded}", "reset", f"setbreak {end:#x}", "run"]
    commands = {program: [program, "image", image, "-", str(cycles)] for program in programs}
    if name != "module":
        commands["bare"] = ["mspdebug", "-q", "sim", *load]
        commands["traced"] = ["mspdebug", "-q", "sim", "simio add tracer tracer", *load, "simio info tracer"]
    least, instructions = {}, 0
    for _ in range(runs):
        for which, command in commands.items():
            time, text = seconds(command)
            if which not in programs and f"pc: {end:05x}" not in text.lower():
                sys.exit(f"{name}: {text}")
            if which == "traced":
                instructions = int(re.search(r"Instruction count: (\d+)", text)[1])
            least[which] = min(time, least.get(which, time))
    for program in programs:
        ours = least[program]
        line = f"{name}: {cycles} cycles, {ours:.2f} s, {cycles / ours / 1e6:.1f} million a second"
        if "bare" in least:
            line += f"; of mspdebug bare {ours / least['bare']:.2f}, with its tracer {ours / least['traced']:.2f}"
        if instructions and shutil.which("valgrind"):
            counted = host_instructions(program, image, COUNTED_CYCLES) - host_instructions(program, image, 0)
            line += f"; {counted / COUNTED_CYCLES * cycles / instructions:.0f} host instructions an instruction"
        print(line + (f" ({program})" if len(programs) > 1 else ""), flush=True)


def main():
    programs = (sys.argv[1] if len(sys.argv) > 1 else "crates/sm_main/out/sm_main").split(",")
    runs = int(sys.argv[2]) if len(sys.argv) > 2 else 3
    with tempfile.TemporaryDirectory() as folder:
        for name in sys.argv[3:] or NAMES:
            one(programs, name, runs, folder)


if __name__ == "__main__":
    main()
