"""Images for `sancus`, and runs of it and of the tools it is held against. Needs Python 3 alone."""
import os
import subprocess
import sys

HERE = os.path.dirname(os.path.realpath(__file__))
sys.path.insert(0, os.path.join(HERE, "../python/src"))
from sancus.image import RESET as RESET_VECTOR  # noqa: F401
from sancus.image import SIZE as MEMORY  # noqa: F401
from sancus.image import Image, Module

# What the scripts take for PROGRAM where none is named: the program that was built here.
BUILT = os.path.join(HERE, "..", "crates", "sm_main", "out", "sm_main")


def word_bytes(word):
    return word.to_bytes(2, "little")


def image_text(memory, key=bytes(16), handler=0, modules=()):
    """The text of an image without modules, or with rows (vendor, text start and end, data start and end)."""
    rows = tuple(Module(vendor, range(*row[:2]), range(*row[2:])) for vendor, *row in modules)
    return Image(1, key, handler, rows, bytes(memory)).text


def run(words, name=None, text=None, **more):
    """What a command wrote, its status, and what it wrote to standard error."""
    done = subprocess.run(words, input=text, capture_output=True, text=True, **more)
    return done.stdout, done.returncode, done.stderr


def sancus(program, folder, image, *words):
    """`sancus WORDS..` where the word IMAGE stands for a file of this text."""
    path = os.path.join(folder, "case.img")
    with open(path, "w", encoding="ascii") as it:
        it.write(image)
    return run([program, *(path if word == "IMAGE" else word for word in words)])
