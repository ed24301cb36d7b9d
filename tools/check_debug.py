#!/usr/bin/env python3
"""Tests of tools/gdb: its states against `sancus monitor`, its stops against `sancus image`, back against forward, broken
packets, and lldb-19 at source level. The last line is `N passed, M failed, K skipped`.

    tools/check_debug.py [PROGRAM [LAB]]"""
import glob
import os
import random
import re
import shutil
import subprocess
import sys
import tempfile
import time
from concurrent.futures import ThreadPoolExecutor

sys.dont_write_bytecode = True
HERE = os.path.dirname(os.path.realpath(__file__))
sys.path[:0] = [HERE, os.path.join(HERE, "../python/src")]
from debug.client import Client

TOP = os.path.dirname(HERE)
EXAMPLES = os.path.join(TOP, "examples")
CYCLES, EVENTS_OF_SCHEDULES = 20000, ("line", "serial")
passed, failed, skipped = 0, 0, 0


def check(what, got, wanted):
    global passed, failed
    if got == wanted:
        passed += 1
    else:
        failed += 1
        print(f"{what}: got {str(got)[:300]}, wanted {str(wanted)[:300]}")


def skip(what):
    global skipped
    skipped += 1
    print(f"skipped: {what}")


def output(*words):
    return subprocess.run(words, capture_output=True, check=False).stdout


def images(tools, room):
    """The images of the examples, and what each layout links of one object: name, image, folder of its schedules."""
    for path in sorted(glob.glob(f"{EXAMPLES}/**/*.img", recursive=True)):
        yield os.path.relpath(path, EXAMPLES), path, os.path.dirname(path)
    for layout in sorted(glob.glob(f"{EXAMPLES}/*/*.toml")):
        folder = os.path.dirname(layout)
        for source in sorted(glob.glob(f"{folder}/*.o") + glob.glob(f"{folder}/*.txt")):
            made = write(room, output(tools[0], "asm", source)) if source.endswith(".txt") else source
            image = output(tools[0], "link", layout, made)
            if image:
                yield os.path.relpath(source, EXAMPLES) + " by " + os.path.basename(layout), write(room, image), folder


def write(room, data):
    handle, path = tempfile.mkstemp(dir=room)
    with os.fdopen(handle, "wb") as file:
        file.write(data)
    return path


def schedules(folder):
    yield "-"
    for path in sorted(glob.glob(f"{folder}/*.txt")):
        with open(path, encoding="ascii", errors="replace") as file:
            words = file.readline().split()
        if len(words) > 2 and words[0].isdigit() and words[1] in EVENTS_OF_SCHEDULES:
            yield path


def moments(name, tools, image, schedule):
    """Drawn moments of one run: registers or the module by the monitor, and all memory that it shows."""
    trace = output(tools[0], "image", image, schedule, str(CYCLES)).decode()
    busy = {line.split()[0] for line in trace.splitlines()}
    client, drawn = Client(image, schedule, "--cycles", str(CYCLES), *tools[2]), random.Random(name)
    client.ask("c")
    last = int(client.command("where").split()[-1])
    if " stop " in trace:
        check(f"{name}: the stop", client.said[-1].partition(": ")[2], re.search(r"^\d+ (stop .*)$", trace, re.M)[1])
    for cycle in [0] + [drawn.randrange(1, CYCLES) for _ in range(8)] if last else []:
        where = client.command(f"seek {cycle}").split()
        if where[2] == "stopped" or where[1] in busy:
            continue
        told = client.command(";".join(["regs"] + [f"mem {addr:04x} 256" for addr in range(0x200, 0x10000, 256)])).splitlines()
        words = told[0].split()
        if words[2] == "outside":
            check(f"{name}: registers in {where[1]}", client.registers(), [int(word, 16) for word in words[3:]])
        else:
            check(f"{name}: the module in {where[1]}", where[3], words[3])
        shown = [line for line in told[1:] if line[4:6] == ": "]
        got = [f"{a:04x}: {(client.memory(a, 256) or b'').hex()}" for a in (int(line[:4], 16) for line in shown)]
        check(f"{name}: memory in {where[1]}", got, shown)
    back_and_forth(name, client, last, drawn)
    client.end()


def back_and_forth(name, client, last, drawn):
    """Steps forward, the same steps back, and again by reverse-continue to a breakpoint."""
    client.command(f"seek {drawn.randrange(CYCLES // 2)}")
    start = int(client.command("where").split()[-1])
    seen = []
    for _ in range(min(40, last - start)):
        seen.append((client.command("where"), client.ask("g"), client.ask("m200,2000")))
        client.ask("s")
    for state in reversed(seen):
        client.ask("bs")
        if (client.command("where"), client.ask("g"), client.ask("m200,2000")) != state:
            check(f"{name}: a step back", client.command("where"), state[0])
            return
    check(f"{name}: steps back", True, True)
    if seen:
        pc = client.registers()[0]
        client.ask("c")
        client.ask(f"Z0,{pc:x},2")
        before = ""
        for _ in range(50):
            at = client.command("where")
            if int(at.split()[-1]) <= start or at == before:
                break
            before = at
            client.ask("bc")
        client.ask(f"z0,{pc:x},2")
        if int(at.split()[-1]) > start:
            return  # a loop that comes there more often
        check(f"{name}: back to a breakpoint", (at, client.ask("g"), client.ask("m200,2000")), seen[0])


def watches(tools):
    """The first write to 0500 of the example of interrupts, whose lines stand in its page; then back to it."""
    folder = f"{EXAMPLES}/interrupts"
    client = Client(f"{folder}/called.img", f"{folder}/pulse_inside.txt", "--cycles", "60", *tools[2])
    client.command("catch enter hide resume leave")
    for line in ("12 enter 1 from 0", "13 hide 1 vector 1", "30 resume 1", "33 leave 1 pc 0214"):
        client.ask("c")
        check("catch", client.said[-1], f"sancus: {line}")
    client.command("catch")
    check("write after the start", (client.ask("M500,2:0013"), "only at the start" in client.said[-1]), ("E01", True))
    check("registers are not written", client.ask("P1=0000"), "E01")
    check("devices are not shown", client.ask("m40,2"), "E01")
    client.command("seek 0")
    check("write at the start", (client.ask("M600,2:1234"), client.ask("m600,2")), ("OK", "1234"))
    check("another view", client.command("catch nothing").startswith("no event"), True)
    check("leaves", client.end(), 0)
    client = Client(f"{folder}/called.img", f"{folder}/pulse_inside.txt", "--cycles", "60", "--outside", *tools[2])
    client.command("seek 31")
    check("outside sees no PC of a module", client.ask("?"), "T05thread:1;")
    check("outside sees no registers of a module", client.ask("g"), "xx" * 64)
    check("outside sees no data of a module", client.ask("m400,2"), "E01")
    client.end()


def far(tools):
    """A breakpoint that the monitor finds ahead of what steps wrote, and the same by steps alone, which a watch asks for."""
    seen = []
    for watched in (False, True):
        client = Client(f"{TOP}/bench/programs/calls.img", "--cycles", "1000000", *tools[2])
        client.ask("Z0,400a,2")
        if watched:
            client.ask("Z2,300,2")
        seen.append((client.ask("c"), client.ask("g"), client.memory(0xEF00, 256), client.command("where"), client.ask("s")))
        client.end()
    check("a far breakpoint", seen[0], seen[1])
    check("the cycle of a far breakpoint", seen[0][3].split()[1], "640066")  # of `until 400a` of the monitor
    client = Client(f"{TOP}/bench/programs/sort.img", *tools[2])
    client.send("c")
    time.sleep(0.5)
    client.socket.sendall(b"\x03")
    check("an interrupt by the client", client.reply()[:3], "T02")
    check("back from there", client.ask("bc")[-16:], "replaylog:begin;")
    client.end()


def refusals(tools, room):
    """What is wrong is told in one line, with status 2."""
    junk = write(room, b"junk\n")
    for words in ([junk], [f"{EXAMPLES}/first.img", junk], [f"{room}/none"], [f"{EXAMPLES}/first.img", "--map", junk]):
        told = subprocess.run([f"{HERE}/gdb", *words, *tools[2]], capture_output=True, text=True, check=False, timeout=60)
        check(f"refused {words}", (told.returncode, told.stdout, told.stderr.count("\n")), (2, "", 1))


def broken_packets(tools):
    """After each hundred of broken packets the server answers as before."""
    client = Client(f"{EXAMPLES}/first.img", "--cycles", "2000", *tools[2])
    sound = client.ask("?")
    for hundred in range(10):
        for _ in range(100):
            body = bytes(random.choice(b"mMgGpPzZsHTqvXr?0123456789abcdef,;:$} \xff\x80") for _ in range(random.randrange(1, 30)))
            text = body if random.randrange(2) else random.choice((b"m", b"Z2,", b"M", b"p", b"qRcmd,", b"vCont;r")) + body
            tail = b"%02x" % (sum(text) & 255) if random.randrange(2) else b"zz"
            client.socket.sendall(b"$" + text.replace(b"#", b"") + b"#" + tail)
        client.send("qRcmd," + b"seek 0".hex())
        while client.packet() != "O" + b"cycle 0 module 0 instruction 0\n".hex():
            pass
        got = (client.packet(), client.ask("?"))
        check(f"hundred {hundred} of broken packets", got, ("OK", sound))
    client.end()


def lldb(words, elf, *commands):
    """What lldb-19 prints of these commands on a server of its own; those behind -k follow a stop by a rule."""
    client = subprocess.Popen([os.path.join(HERE, "gdb"), *words], stdout=subprocess.PIPE, text=True)
    port = client.stdout.readline().rsplit(":", 1)[-1].strip()
    options = ["-o", f"gdb-remote {port}", *(word for pair in commands for word in pair)]
    told = subprocess.run(["lldb-19", "--no-lldbinit", "-b", elf, *options], capture_output=True, text=True, check=False, timeout=120)
    client.stdout.close()
    client.wait(10)
    return told.stdout + told.stderr


def source_level(tools, room):
    """The page of examples/debug, by lldb-19 and the object of clang-19 that stands there, and by a fresh one."""
    source, made = f"{EXAMPLES}/debug", [f"{EXAMPLES}/debug/vault.o"]
    flags = ["--target=msp430", "-O1", "-fno-jump-tables", f"-I{TOP}/include", "-c", f"{source}/vault.c", "-o"]
    if shutil.which("clang-19"):
        made.append(f"{room}/fresh.o")
        subprocess.run(["clang-19", "-gdwarf-4", *flags, made[1]], check=True)
    if shutil.which("clang-14"):
        subprocess.run(["clang-14", "-g", *flags, f"{room}/five.o"], check=True)
        words = [f"{HERE}/gdb", f"{EXAMPLES}/first.img", "--objects", f"{room}/five.o"]
        told = subprocess.run(words, capture_output=True, text=True, check=False)
        check("DWARF 5 of clang 14", (told.returncode, "compile it with -gdwarf-4" in told.stderr), (2, True))
    else:
        skip("clang-14")
    if not shutil.which("lldb-19"):
        skip("lldb-19")
        return
    for number, path in enumerate(made):
        base = f"{room}/vault{number}"
        for end, words in (("img", [tools[0], "link"]), ("map", [tools[1], "map"])):
            with open(f"{base}.{end}", "wb") as file:
                file.write(output(*words, f"{source}/layout.toml", path))
        subprocess.run([f"{HERE}/elf", f"{base}.map", f"{base}.img", f"{base}.elf", path], check=True)
        words = [f"{base}.img", "--map", f"{base}.map", "--objects", path, *tools[2]]
        told = lldb(words, f"{base}.elf", ("-o", "b put"), ("-o", "c"), ("-o", "bt"), ("-o", "p amount"), ("-o", "finish"), ("-o", "finish"),
                    ("-o", "breakpoint delete -f"), ("-o", "c"), ("-k", "bt"),
                    ("-k", "process plugin packet monitor reverse"),
                    ("-k", "watchpoint set variable -w write shown"), ("-k", "c"), ("-k", "bt"))
        wanted = [r"`put\(amount=5\) at vault.c:8", r"frame #1: 0x1026 \S*`vault.entry \+ 38", r"frame #2: 0x\w+ \S*`main at vault.c:23",
                  r"\(unsigned int\) 5", r"step out\n +frame #0: 0x1026", r"step out\n +frame #0: 0x0230 \S*`main",
                  r"stop ReadData pc \w+ addr 1100 module 1 vault", r"`spy\(place=0x1100\) at vault.c:18",
                  r"old value: 12\s+new value: 5", r"`main at vault.c:24"]
        for pattern in wanted:
            if not re.search(pattern, told):
                print(told)
            check(f"lldb-19 on {os.path.basename(path)}: {pattern}", bool(re.search(pattern, told)), True)


def main():
    random.seed(11)
    words = sys.argv[1:] + [f"{TOP}/release/sancus", f"{TOP}/release/sancus-lab"][len(sys.argv) - 1:]
    program, lab = (os.path.realpath(word) for word in words)
    with tempfile.TemporaryDirectory() as room:
        os.symlink(program, f"{room}/sancus")
        os.symlink(lab, f"{room}/sancus-lab")
        tools = (f"{room}/sancus", f"{room}/sancus-lab", ("--bin", room))
        runs = []
        for name, image, folder in images(tools, room):
            runs += [(f"{name} {os.path.basename(schedule)}", tools, image, schedule) for schedule in schedules(folder)]
        with ThreadPoolExecutor(3) as pool:
            list(pool.map(lambda run: moments(*run), runs))
        watches(tools)
        far(tools)
        refusals(tools, room)
        broken_packets(tools)
        source_level(tools, room)
    print(f"{passed} passed, {failed} failed" + (f", {skipped} skipped" if skipped else ""))
    return bool(failed or not passed or skipped and os.environ.get("CI") == "true")


if __name__ == "__main__":
    sys.exit(main())
