"""Finds the proved programs and runs them. Nothing is written to a disk: texts go over as memory files (Linux)."""
from __future__ import annotations

import functools
import hashlib
import os
import shutil
import subprocess
from collections.abc import Sequence
from pathlib import Path
from typing import Union

from .errors import BadFile, Died, NoLink, NoMemory, ProgramMissing, Refused

Word = Union[str, "os.PathLike[str]", int, bytes]
"""A word of the command line; bytes become a file that the program reads."""
KINDS: dict[int, type[Refused]] = {4: BadFile, 5: NoLink, 8: NoMemory}


def digest(path: str | os.PathLike[str]) -> str:
    """The SHA-256 of a file, in hexadecimal."""
    with open(path, "rb") as file:
        return hashlib.file_digest(file, "sha256").hexdigest()


def released(name: str) -> str | None:
    """The program in release/ of the clone that this package lies in, where its hash is that of SHA256SUMS; else None."""
    for top in Path(__file__).resolve().parents:
        sums = top / "release" / "SHA256SUMS"
        if sums.is_file():
            wanted = {row[1]: row[0] for row in (line.split() for line in sums.read_text(encoding="ascii").splitlines())}
            path = sums.with_name(name)
            if wanted.get(name) != digest(path):
                raise ProgramMissing(f"{path} is not the program that {sums} names")
            return str(path)
    return None


@functools.cache
def find(name: str = "sancus") -> str:
    """The path of a program: that of $SANCUS (or $SANCUS_LAB), the clone's release/, or the one on the path."""
    variable = name.upper().replace("-", "_")
    named = os.environ.get(variable)
    path = named or released(name) or shutil.which(name)
    if path is None or not os.access(path, os.X_OK) or not os.path.isfile(path):
        raise ProgramMissing(f"no {name}: set {variable}, or run ./build in the clone" if not named else f"{variable}={named} is no program")
    return path


@functools.cache
def program_digest(name: str = "sancus") -> str:
    """The SHA-256 of the program that is found."""
    return digest(find(name))


def call(command: str, *words: Word, lab: bool = False, takes: Sequence[int] = (0,), timeout: float | None = None) -> bytes:
    """What a command wrote, where its status is one of those taken; else Refused, or what lies below it, is raised.

    `lab` asks sancus-lab. `timeout` is in seconds; subprocess.TimeoutExpired is raised behind it.
    """
    fds: dict[int, str] = {}
    try:
        line = [find("sancus-lab" if lab else "sancus"), command]
        for word in words:
            if isinstance(word, bytes):
                fd = os.memfd_create("sancus")
                line.append(f"/proc/self/fd/{fd}")
                fds[fd] = line[-1]
                with open(fd, "wb", closefd=False) as file:
                    file.write(word)
            else:
                line.append(str(word))
        done = subprocess.run(line, capture_output=True, pass_fds=list(fds), timeout=timeout)
    finally:
        for fd in fds:
            os.close(fd)
    if done.returncode < 0:
        raise Died(done.returncode, f"{command} was ended by signal {-done.returncode}")
    if done.returncode not in takes:
        said = done.stderr.decode("utf-8", "replace").strip()
        raise KINDS.get(done.returncode, Refused)(done.returncode, said)
    return done.stdout


@functools.cache
def commands(lab: bool = False) -> frozenset[str]:
    """The names of the commands that a program lists."""
    said = call("--help", lab=lab).decode("ascii")
    return frozenset(row[1] for row in (line.split() for line in said.splitlines()) if len(row) > 1)
