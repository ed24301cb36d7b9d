"""Sweeps: each image with an interrupt in each of some cycles, and what the traces say."""
from __future__ import annotations

import hashlib
import itertools
import json
import os
from collections.abc import Callable, Iterable, Iterator, Mapping
from typing import TYPE_CHECKING, Union

from .image import Image
from .pool import Client, Progress, retried, same_program, spread
from .program import call, program_digest
from .schedule import Schedule
from .store import Of, Row, Store
from .trace import Trace

if TYPE_CHECKING:
    import pandas

Scalar = Union[int, float, str, bool, None]
Observe = Callable[[Trace, int], Mapping[str, Scalar]]
Plan = tuple[str, int, str]  # the image's SHA-256, the pulse, the schedule's text


def latency(trace: Trace, pulse: int) -> dict[str, Scalar]:
    """What is observed where nothing else is asked for: cycles from the pulse to its handler, the last cycle, and the rule of a
    stop, each None where there is none."""
    return {"latency": trace.latency(pulse), "end": trace.end.cycle, "stop": trace.stopped.rule if trace.stopped else None}


def pulse_of_line_0(cycle: int) -> Schedule:
    """Line 0 goes up in a cycle, and nothing else happens."""
    return Schedule().pulse(cycle)


def sha(text: str) -> str:
    """The SHA-256 of a text."""
    return hashlib.sha256(text.encode()).hexdigest()


def work(texts: Mapping[str, str], plans: list[Plan], bound: int, observe: Observe, program: str) -> list[Row]:
    """The rows of a batch, in whatever process."""
    same_program(program)
    rows = []
    for image, pulse, schedule in plans:
        given = (texts[image].encode(), schedule.encode() or "-", bound)
        text = retried(lambda: call("image", *given, takes=(0, 3))).decode("ascii")
        rows.append(Row(image, pulse, schedule, sha(text), json.dumps(observe(Trace(text), pulse))))
    return rows


class Results:
    """The rows of a sweep, as they are stored."""

    def __init__(self, store: Store, of: Of, names: Mapping[str, str]) -> None:
        self.store, self.of, self.names = store, of, names

    def __iter__(self) -> Iterator[dict[str, Scalar]]:
        """Each run: `image` (its name), `pulse`, `schedule`, `trace` (SHA-256), and what was observed."""
        known: dict[str, list[str]] = {}
        for name, image in self.names.items():
            known.setdefault(image, []).append(name)
        for row in self.store.rows(self.of, known):
            for name in known[row.image]:
                yield {"image": name, "pulse": row.pulse, "schedule": row.schedule, "trace": row.trace, **json.loads(row.observed)}

    def differ(self) -> list[int]:
        """The pulses after which not all images have one trace."""
        groups = itertools.groupby(self, key=lambda row: (row["pulse"], row["schedule"]))
        return sorted({int(key[0] or 0) for key, rows in groups if len({row["trace"] for row in rows}) > 1})

    def frame(self) -> pandas.DataFrame:
        """The rows as a pandas DataFrame."""
        import pandas
        return pandas.DataFrame(list(self))


def batches(plans: Iterable[Plan], size: int) -> Iterator[list[Plan]]:
    """The plans, so many at a time."""
    it = iter(plans)
    while batch := list(itertools.islice(it, size)):
        yield batch


def sweep(images: Mapping[str, Image], pulses: Iterable[int], *, limit: int, schedule: Callable[[int], Schedule] = pulse_of_line_0,
          observe: Observe = latency, client: Client = None, jobs: int | None = None, batch: int = 64,
          store: str | os.PathLike[str] = ":memory:", progress: bool | None = None) -> Results:
    """Runs each image, for `limit` cycles, with the schedule of each pulse.

    `observe` is a function of a module that workers can import, and gives of a trace and its pulse what a row keeps. The runs go to
    `jobs` processes of this machine (its processors), or to the workers of a dask.distributed Client, `batch` at a time. Rows
    that the store has of this program are not run again. Refused is raised where the program refuses an image.
    """
    program = program_digest()
    texts = {sha(text): text for text in (image.text for image in images.values())}
    of, kept = Of(program, limit, f"{observe.__module__}.{observe.__qualname__}"), Store(store)
    told = Progress(len(images) * len(pulses) if isinstance(pulses, (range, list, tuple)) else None, progress)

    def plans() -> Iterator[Plan]:
        for pulse in pulses:
            text = schedule(pulse).text
            for image in texts:
                if kept.has(of, image, pulse, text):
                    told.add(1)
                else:
                    yield image, pulse, text

    tasks = (({image: texts[image] for image in {plan[0] for plan in some}}, some, limit, observe, program)
             for some in batches(plans(), batch))
    for rows in spread(work, tasks, client, jobs):
        kept.put(of, rows)
        told.add(len(rows))
    told.close()
    return Results(kept, of, {name: sha(image.text) for name, image in images.items()})
