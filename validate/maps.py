#!/usr/bin/env python3
"""The map of each example's objects, as clang makes them at some levels, against what relocations put into the image.

    python3 validate/maps.py SANCUS SANCUS_LAB

SANCUS and SANCUS_LAB are the built programs. Needs Debian's clang. An object with a word for each global name is linked last, and its words
are read from the image (tools/map_check). Where objects do not link, `map` has to end as `link` does.
"""
import pathlib
import subprocess
import sys
import tempfile

import machine  # noqa: F401, which finds the package
from sancus.command import Usage, start

TOP = pathlib.Path(__file__).resolve().parent.parent
EXAMPLES = {"c": ["meter"], "c_check": ["vault"], "c_devices": ["devices"], "c_modules": ["shop"], "c_units": ["units"],
            "runtime": ["product", "runtime"]}
LEVELS = [["-Os"], ["-O0"], ["-O0", "-g"], ["-O2", "-g"]]


def objects_of(room, example, level):
    """The objects of an example, compiled at a level."""
    made = []
    for name in EXAMPLES[example]:
        made.append(str(room / f"{name}.o"))
        subprocess.run(["clang", "--target=msp430", *level, "-fno-jump-tables", f"-I{TOP}/include", "-c",
                        f"{TOP}/examples/{example}/{name}.c", "-o", made[-1]], check=True, capture_output=True)
    return made


def compared(room, sancus, lab, words):
    """What the map of these words and the image say of each other, and whether they agree."""
    linked = subprocess.run([sancus, "link", *words], capture_output=True)
    told = subprocess.run([lab, "map", *words], capture_output=True)
    if linked.returncode:
        same = told.returncode == linked.returncode and told.stderr == linked.stderr.replace(b"sancus:", b"sancus-lab:", 1)
        return "refused as link refuses" if same else "refused otherwise", same
    path = room / "map"
    path.write_bytes(told.stdout)
    check = subprocess.run([f"{TOP}/tools/map_check", sancus, path, *words], capture_output=True, text=True)
    return (check.stdout + check.stderr).strip().splitlines()[-1], check.returncode == 0


def main(words):
    if len(words) != 2:
        raise Usage
    cases = differ = 0
    with tempfile.TemporaryDirectory() as place:
        room = pathlib.Path(place)
        for example in EXAMPLES:
            for level in LEVELS:
                layout = f"{TOP}/examples/{example}/layout.toml"
                said, same = compared(room, *words, [layout, *objects_of(room, example, level)])
                print(example, *level, said)
                cases, differ = cases + 1, differ + (not same)
    print(f"{cases} cases, {differ} differ")
    return differ > 0


start(main, __doc__)
