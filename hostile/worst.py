#!/usr/bin/env python3
"""The worst texts that were found for `check` and `balance`, beside ordinary ones: time and memory of the program.

    python3 hostile/worst.py PROGRAM [WORD]

PROGRAM is the built `sancus` (crates/sm_main/out/sm_main). With WORD only the cases whose names have it. Needs Debian's
`time`, and clang and LLVM 14 for the ordinary texts. What was measured goes to bench/results/worst.txt, with the
machine, its load and the version.
"""
import os
import pathlib
import random
import subprocess
import sys
import tempfile

TOP = pathlib.Path(__file__).resolve().parent.parent
LAYOUT = """version = 1
key = "0f0e0d0c0b0a09080706050403020100"
handler_sp = 0x1600
text = [0x0400, 0x0600]
data = [0x0200, 0x0300]
[vectors]
v15 = "_start"
[[module]]
name = "big"
vendor = 7
text = [0x0800, 0xfc00]
data = [0xfc00, 0xff00]
stack = 64
entries = ["e0", "e1", "e2", "e3"]
"""
START = "    .text\n    .globl _start\n_start:\n    mov #0x0200, r1\n    jmp _start\n"
TEXT, DATA, SECRET, CALLS, ROWS = 0x0300, 0xF000, 0x206, 72, 51


def words(*values):
    return b"".join(value.to_bytes(2, "little") for value in values)


def image_of(code, size):
    """An image with a module of this text and so much data."""
    end, padded = TEXT + len(code), code + bytes(-len(code) % 16)
    rows = (f"at {TEXT + at:04x} {padded[at : at + 16].hex()}\n" for at in range(0, len(padded), 16))
    module = f"module 0007 {TEXT:04x} {end:04x} {DATA:04x} {DATA + size:04x}\n"
    return "sancus-image 1\nkey " + "0" * 32 + "\nhandler 0000\n" + module + "".join(rows) + "end\n"


def moves(count):
    """Each of so many data words becomes the next, the last one first."""
    return b"".join(words(0x4292, DATA + 2 * k, DATA + 2 * k + 2) for k in range(count - 2, -1, -1))


def check_that_rises(count, others):
    """So many data words are set to 0, and a loop moves each to the next: they become less known one a turn."""
    code = b"".join(words(0x4382, DATA + 2 * k) for k in range(count))
    turn = moves(count) + words(0x5392, DATA) + words(0x4404) * others + words(0x4030, TEXT + len(code))
    return image_of(code + turn, 512)


def rising_twice(count):
    """What sets so many data words and two more to 0, and a turn in which they become less known one a turn, and once
    more: the first is counted up, and a longer way round brings it a secret."""
    late, public = DATA + 2 * count, DATA + 0x1FC
    before = b"".join(words(0x4382, DATA + 2 * k) for k in range(count + 1)) + words(0x4382, public)
    longer = words(0x4303) * 60 + words(0x4292, DATA + SECRET, late)
    counted = words(0x5392, DATA, 0x5292, late, DATA, 0x9382, public, 0x2000 | len(longer) // 2)
    return before, moves(count) + counted + longer


def check_that_rises_twice(count, others):
    """The same where each word becomes less known twice."""
    code, turn = rising_twice(count)
    return image_of(code + turn + words(0x4404) * others + words(0x4030, TEXT + len(code)), 1024)


def balance_of_addresses(count):
    """72 calls of a routine with 72 calls of one with a secret branch, met under 5,184 call strings. Both arms have so
    many sums, and a last address that hangs on the call string: what one walk tells is of no use under another."""
    arm = words(0x4034, DATA, 0x4384, 0, 0x4125, 0x4116, 2, 0x5605) + words(0x5605) * count
    arm += words(0xF035, 0x00FE, 0x5035, DATA, 0x4527, 0x4305, 0x4307)
    head = words(0x4031, DATA + 0x200, 0x9382, DATA + 0x200)
    inner = TEXT + len(head) + 4 * CALLS + 4
    branch = inner + 4 * CALLS + 2
    code = head + words(0x12B0, inner) * CALLS + words(0x4030, TEXT + 4) + words(0x12B0, branch) * CALLS
    code += words(0x4130, 0x2400) + arm + words(0x4130)
    return image_of(code, 0x400), f"{branch:04x} {branch + 2 + len(arm):04x} {12 + count + 8}\n"


def balance_of_two(codes, cycles, shuts):
    """51 calls of a routine with 51 calls of one with two branches of one merge point, whose arms have these
    instructions at addresses of each call string's and each arm's own. Each call can be passed by, and data words
    rise one a turn, each twice. Where it shuts, the arms want a word that is not known from the second turn on."""
    public, wanted, other = DATA + 0x1F0, DATA + 0x1F2, DATA + 0x1F4
    before, again = rising_twice(240)
    arm = words(0x4034, DATA + 0x1F8, 0x4384, 0, 0x4125, 0xF035, 0x00FE, 0x5035, DATA, 0x5705, *codes)
    arm += words(0x4125, 0x4116, 2, 0x5605, *((0x5215, wanted) if shuts else ()))
    arm += words(0xF035, 0x00FE, 0x5035, DATA, 0x4527, 0x4305, 0x4307)
    again += words(0x5292, other, wanted, 0x5392, other) if shuts else b""
    taken = 3 + 6 + 7 + cycles + 3 * shuts + 14

    def row(routine):
        return words(0x9382, public) + words(0x2002, 0x12B0, routine) * ROWS

    head = words(0x4031, DATA + 0x200, 0x4382, public, 0x4382, wanted, 0x4382, other) + before
    loop = TEXT + len(head)
    again += words(0x4030, loop)
    inner = loop + len(row(0)) + len(again)
    last = inner + len(row(0)) + 2
    first, second = last + 4, last + 14
    join = second + 10 + len(arm)
    # R7 says in which arm it is; the first branch's arms jump past the second branch.
    code = head + row(inner) + again + row(last) + words(0x4130, 0x9382, DATA + SECRET, 0x2402, 0x4327, 0x3C07)
    code += words(0x4227, 0x3C05, 0x2402, 0x4327, 0x3C02, 0x4227, 0x3C00) + arm + words(0x4030, second)
    return image_of(code, 0x400), f"{first:04x} {join:04x} {taken}\n{second:04x} {join:04x} {taken}\n"


def mixed_reads(count):
    """So many reads by R5 into R8 to R15, in an order that no host foresees; and their cycles."""
    pick = random.Random(7).randrange
    return [pick(4, 16) << 12 | 0x0520 | pick(2) << 6 | pick(8, 16) for _ in range(count)], 2 * count


def vendor_source(count, body):
    """A module of C as a vendor writes it: so many functions of so many statements over its data, and four entries."""
    chance, mark = random.Random(count), '__attribute__((section(".sm.big.text")))'
    lines = [f'static __attribute__((section(".sm.big.data"))) volatile unsigned s{k} = {k};' for k in range(48)]
    for number in range(count):
        lines.append(f"{mark} __attribute__((noinline)) static void f{number}(void){{unsigned a=s1,b=s2,c=s3;")
        for _ in range(body):
            x, y, z = (chance.choice("abc") for _ in range(3))
            kept, op, word = f'__asm__ volatile("":"+r"({x}));', chance.choice("+-^&|"), f"s{chance.randrange(48)}"
            forms = f"{x}={y}{op}{z};{kept}", f"{word}={x}{op}{y};", f"{x}^={word};", f"{x}=({y}>>1){op}{z};{kept}"
            lines.append(chance.choice(forms))
        called = f"f{chance.randrange(max(0, number - 6), number)}();" if number and chance.random() < 0.8 else ""
        lines.append(f"s3=a^b^c;{called}}}")
    for entry in range(4):
        lines.append(f"{mark} void e{entry}(void){{" + "".join(f"f{n}();" for n in range(entry, count, 4)) + "}")
    return "\n".join(lines) + "\n"


def vendor_image(file, program, name, text):
    source, start = file(name + ".c", text), file("start.s", START)
    subprocess.run(["clang", "--target=msp430", "-ffreestanding", "-Os", "-c", source, "-o", source + ".o"], check=True)
    subprocess.run(["llvm-mc-14", "--triple=msp430", "-filetype=obj", start, "-o", start + ".o"], check=True)
    line = [program, "link", file("layout", LAYOUT), start + ".o", source + ".o"]
    return file(name, subprocess.check_output(line, text=True))


def cases(file, program):
    for size, count, body in ((2, 16, 20), (16, 94, 30), (55, 224, 46)):
        image = vendor_image(file, program, f"vendor{size}", vendor_source(count, body))
        yield f"check, some {size} KiB of C", ["check", image, "1"]
    yield "check, data words that rise one a turn", ["check", file("rising", check_that_rises(256, 15_300)), "1"]
    yield "check, the same, each twice", ["check", file("twice", check_that_rises_twice(250, 14_900)), "1"]
    built = {"arms of 25,000 sums met 5,184 times, each with its own address": balance_of_addresses(25_000)}
    for shuts, which in ((False, ""), (True, ", with a violation")):
        name = f"two branches of 26,850 mixed reads met 2,601 times{which}"
        built[name] = balance_of_two(*mixed_reads(26_850), shuts)
    for name, (image, arms) in built.items():
        yield f"balance, {name}", ["balance", file("image", image), "1", file("arms", arms)]


def measured(program, line):
    """Seconds of the processor, MiB, and status."""
    timed = ["/usr/bin/time", "-f", "%U %S %M", program, *line]
    child = subprocess.run(timed, stdout=subprocess.DEVNULL, stderr=subprocess.PIPE, text=True, check=False)
    user, system, kibibytes = child.stderr.split("\n")[-2].split()
    return float(user) + float(system), int(kibibytes) / 1024, child.returncode


def machine():
    lines = pathlib.Path("/proc/cpuinfo").read_text().splitlines()
    name = next((line.split(":")[1].strip() for line in lines if line.startswith("model name")), "unknown")
    version = subprocess.check_output(["git", "-C", TOP, "describe", "--always", "--dirty"], text=True).strip()
    return f"{name}, {os.cpu_count()} processors; load {os.getloadavg()[0]:.1f}; version {version}"


def main():
    program, word = os.path.abspath(sys.argv[1]), sys.argv[2] if len(sys.argv) > 2 else ""
    table = [machine(), "", "| Text | Status | Time | Memory |", "|---|---|---|---|"]
    with tempfile.TemporaryDirectory() as folder:
        def file(name, text):
            path = pathlib.Path(folder, name)
            path.write_text(text)
            return str(path)
        for name, line in cases(file, program):
            if word in name:
                seconds, memory, status = measured(program, line)
                table.append(f"| {name} | {status} | {seconds:.2f} s | {memory:.1f} MiB |")
                print(table[-1], flush=True)
    results = TOP / "bench" / "results"
    results.mkdir(exist_ok=True)
    (results / "worst.txt").write_text("\n".join(table) + "\n")


if __name__ == "__main__":
    main()
