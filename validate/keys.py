#!/usr/bin/env python3
"""Keys by `sancus key`, and tags sent by the example machine, against openssl.

    python3 validate/keys.py PROGRAM [CASES]

PROGRAM is the built `sancus` (crates/sm_main/out/sm_main). Needs Debian's openssl. The rule: the vendor's key is the first 16 bytes of the
HMAC-SHA-256 of the vendor's number, low byte first, under the node's key; the module's is that of its text and its four bounds, low bytes
first, under the vendor's.
"""
import os
import random
import subprocess
import sys
import tempfile

import machine
from sancus.command import start
from sancus.trace import Trace

TOP = os.path.join(os.path.dirname(os.path.abspath(__file__)), "..")


def openssl_hmac(key, message):
    words = ["openssl", "dgst", "-sha256", "-mac", "HMAC", "-macopt", "hexkey:" + key.hex(), "-binary"]
    return subprocess.run(words, input=message, capture_output=True, check=True).stdout[:16]


def little(*numbers):
    return b"".join(machine.word_bytes(number) for number in numbers)


def random_modules(rng):
    """Up to eight modules whose sections share no byte."""
    cuts = sorted(rng.sample(range(0x0100, 0x7FF0), 4 * rng.randint(1, 8)))
    return [(rng.randrange(65536), *(2 * cut for cut in cuts[at : at + 4])) for at in range(0, len(cuts), 4)]


def key_cases(program, folder, rng, count):
    """How many pairs of keys were asked, and which differ."""
    cases, wrong = 0, []
    while cases < count:
        node, memory, modules = rng.randbytes(16), bytearray(machine.MEMORY), random_modules(rng)
        for vendor, start, end, *_ in modules:
            memory[start:end] = rng.randbytes(end - start)
        image = machine.image_text(memory, node, 0, modules)
        for number, row in enumerate(modules, 1):
            vendor, start, end, low, high = row
            provider = openssl_hmac(node, little(vendor))
            own = openssl_hmac(provider, bytes(memory[start:end]) + little(start, end, low, high))
            wanted = f"provider {provider.hex()}\nmodule {own.hex()}\n"
            out, status, _ = machine.sancus(program, folder, image, "key", "IMAGE", str(number))
            cases += 1
            if (out, status) != (wanted, 0):
                wrong.append((row, out, wanted))
    return cases, wrong


def tag_cases(program, folder):
    """The tags that the example machine sends for its three challenges."""
    example = lambda name: os.path.join(TOP, "examples", "attestation", name)
    schedule = os.path.join(folder, "schedule.txt")
    with open(schedule, "w", encoding="ascii") as it:
        it.write(machine.run([program, "challenge", example("challenges.txt")])[0])
    trace, _, _ = machine.run([program, "image", example("tagger.img"), schedule, "9500"])
    sent = Trace(trace).sent
    key = bytes.fromhex(machine.run([program, "key", example("tagger.img"), "1"])[0].split()[3])
    with open(example("challenges.txt"), encoding="ascii") as it:
        nonces = [bytes.fromhex(line.split()[1]) for line in it]
    wrong = [i for i, nonce in enumerate(nonces) if sent[16 * i : 16 * i + 16] != openssl_hmac(key, nonce)]
    return len(nonces), wrong


def main(words):
    program = words[0] if words else machine.BUILT
    count = int(words[1]) if len(words) > 1 else 200
    with tempfile.TemporaryDirectory() as folder:
        keys, wrong_keys = key_cases(program, folder, random.Random(1), count)
        tags, wrong_tags = tag_cases(program, folder)
    for it in [*wrong_keys, *wrong_tags]:
        print(it)
    wrong = len(wrong_keys) + len(wrong_tags)
    print(f"{keys + tags} cases, {wrong} differences{', each explained' if not wrong else ''}")
    return 1 if wrong else 0


if __name__ == "__main__":
    start(main, __doc__)
