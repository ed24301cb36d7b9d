"""What is common to scripts: one line for what goes wrong, and whole files or none."""
from __future__ import annotations

import os
import subprocess
import sys
from collections.abc import Callable, Iterable
from typing import NoReturn

from .errors import SancusError


class Usage(SancusError):
    """The words are no call of the script."""


def start(main: Callable[[list[str]], int | bool | None], usage: str | None = None) -> NoReturn:
    """Runs a script on its words. Its status is that of `main`, or 2 with a message of one line; a reader that went away
    ends it quietly, with 141 as a shell tells it of other programs."""
    name = os.path.basename(sys.argv[0])
    try:
        status = int(main(sys.argv[1:]) or 0)
        sys.stdout.flush()
    except BrokenPipeError:
        os.dup2(os.open(os.devnull, os.O_WRONLY), sys.stdout.fileno())
        status = 141
    except Usage:
        lines = (usage or "").strip().splitlines()
        status = told(f"usage: {next((line for line in lines if line.startswith('    ')), lines[0] if lines else name)}")
    except OSError as error:
        status = told(f"{name}: {error.filename or 'a file'}: {error.strerror or error}")
    except (SancusError, ValueError, subprocess.SubprocessError) as error:
        status = told(f"{name}: {error}")
    sys.exit(status)


def told(message: str) -> int:
    """Says a message in one line, and is the status for it."""
    print(" ".join(message.split()), file=sys.stderr)
    return 2


def write_new(path: str, data: bytes, inputs: Iterable[str] = ()) -> None:
    """Writes a whole file or none: beside the old one, which it then replaces. Refused where that is one of the inputs."""
    for one in inputs:
        if os.path.exists(path) and os.path.samefile(path, one):
            raise SancusError(f"{path} is read and would be overwritten: name another file")
    if os.path.exists(path) and not os.path.isfile(path):
        with open(path, "wb") as file:
            file.write(data)
        return
    path = os.path.realpath(path)
    made = f"{path}.{os.getpid()}.new"
    try:
        with open(made, "xb") as file:
            file.write(data)
        os.replace(made, path)
    except OSError:
        if os.path.exists(made):
            os.remove(made)
        raise
