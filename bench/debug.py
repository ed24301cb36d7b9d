#!/usr/bin/env python3
"""Times tools/gdb on bench/programs/sort.img: python3 bench/debug.py [INSTRUCTIONS (10000000)]

A line for each: instructions a second that steps alone writes and that `continue` goes, memory of the server at its most, and
the seconds for a step, a step back from the end, back to a breakpoint and back over everything; then
instructions a second to a breakpoint that the monitor finds."""
import os
import subprocess
import sys
import time

HERE = os.path.dirname(os.path.realpath(__file__))
TOP = os.path.dirname(HERE)
sys.dont_write_bytecode = True
sys.path.insert(0, os.path.join(TOP, "tools"))
from debug.client import Client

IMAGE = os.path.join(HERE, "programs/sort.img")
CYCLES_EACH = 1.7874  # of an instruction of this program
BREAK, END = 0x47EE, 0x400A  # in its middle loop, and its end


def timed(client, packet):
    began = time.monotonic()
    client.ask(packet)
    return time.monotonic() - began


def main():
    count = int(sys.argv[1]) if len(sys.argv) > 1 else 10 ** 7
    cycles, program = str(int(count * CYCLES_EACH)), os.path.join(TOP, "release")
    began = time.monotonic()
    subprocess.run([f"{program}/sancus-lab", "steps", IMAGE, "-", cycles], stdout=subprocess.DEVNULL, check=True)
    alone = time.monotonic() - began
    client = Client(IMAGE, "--cycles", cycles, "--bin", program)
    whole = timed(client, "c")
    done = int(client.command("where").split()[-1])
    print(f"instructions {done}, steps alone {done / alone:.0f} a second, continue {done / whole:.0f} a second")
    with open(f"/proc/{client.server.pid}/status", encoding="ascii") as file:
        most = next(int(line.split()[1]) for line in file if line.startswith("VmHWM:"))
    print(f"memory {most / 1024:.0f} MiB")
    print(f"a step back from the end {timed(client, 'bs'):.3f} s, a step {timed(client, 's'):.4f} s")
    client.ask(f"Z0,{BREAK:x},2")
    print(f"back to a breakpoint {timed(client, 'bc'):.3f} s")
    client.ask(f"z0,{BREAK:x},2")
    print(f"back over everything {timed(client, 'bc'):.3f} s")
    client.end()
    client = Client(IMAGE, "--cycles", "12000000", "--bin", program)
    client.ask(f"Z0,{END:x},2")
    ahead = timed(client, "c")
    done = int(client.command("where").split()[-1])
    print(f"continue to a breakpoint that the monitor finds {done / ahead:.0f} a second")
    client.end()


if __name__ == "__main__":
    main()
