"""Many tasks: in processes of this machine, or on the workers of a dask.distributed Client."""
from __future__ import annotations

import itertools
import os
import sys
import time
from collections import deque
from collections.abc import Callable, Iterator
from concurrent import futures
from concurrent.futures.process import BrokenProcessPool
from typing import Any, TypeVar

from .errors import Died, NoMemory, SancusError
from .program import find, program_digest

Client = Any
"""A dask.distributed Client, which has no types."""
T = TypeVar("T")
U = TypeVar("U")
RETRIES = 3


class SchedulerLost(SancusError):
    """The Client's scheduler ended. What was done is stored, and a call with another Client goes on."""


class OtherProgram(SancusError):
    """A worker has another program than the caller."""


def spread(work: Callable[..., U], tasks: Iterator[tuple[Any, ...]], client: Client, jobs: int | None) -> Iterator[U]:
    """What `work` makes of each task, in any order. What a lost worker had is done again; few tasks are held at once."""
    if client is not None:
        return on_client(work, tasks, client)
    return on_processes(work, tasks, jobs or os.cpu_count() or 1)


def on_processes(work: Callable[..., U], tasks: Iterator[tuple[Any, ...]], jobs: int) -> Iterator[U]:
    """By processes of this machine; a pool that lost one is made again, at most RETRIES times without a result between."""
    lost: deque[tuple[Any, ...]] = deque()
    failures = 0
    while True:
        held: dict[futures.Future[U], tuple[Any, ...]] = {}
        with futures.ProcessPoolExecutor(jobs) as pool:
            try:
                while True:
                    lost.extend(itertools.islice(tasks, max(0, 2 * jobs - len(held) - len(lost))))
                    while lost and len(held) < 2 * jobs:
                        future = pool.submit(work, *lost[0])
                        held[future] = lost.popleft()
                    if not held:
                        return
                    for done in futures.wait(held, return_when=futures.FIRST_COMPLETED).done:
                        result = done.result()
                        del held[done]
                        failures = 0
                        yield result
            except BrokenProcessPool:
                failures += 1
                if failures > RETRIES:
                    raise
                lost.extend(held.values())
            finally:
                for one in held:
                    one.cancel()


def on_client(work: Callable[..., U], tasks: Iterator[tuple[Any, ...]], client: Client) -> Iterator[U]:
    """By a Client's workers; at most four tasks a thread are held."""
    import distributed
    as_completed: Any = distributed.as_completed  # it has no types
    threads = max(1, sum(client.nthreads().values()))

    def send(some: int) -> list[Any]:
        return [client.submit(work, *task, pure=False, retries=RETRIES) for task in itertools.islice(tasks, some)]

    try:
        held = as_completed(send(4 * threads), with_results=True)
        for future, result in held:
            if future.cancelled():
                raise futures.CancelledError
            future.release()
            held.update(send(1))
            yield result
    except (distributed.CancelledError, futures.CancelledError, OSError) as error:
        raise SchedulerLost(f"the scheduler ended: {error or type(error).__name__}") from error


def same_program(want: str) -> None:
    """Whether a worker has the program of the caller, by its SHA-256."""
    have = program_digest()
    if have != want:
        raise OtherProgram(f"a worker has another program, {have[:16]}, than the caller, {want[:16]}: {find()}")


def retried(run: Callable[[], T]) -> T:
    """What a run gives; it is tried again where a signal or want of memory ended it."""
    for tried in itertools.count(1):
        try:
            return run()
        except (Died, NoMemory):
            if tried > RETRIES:
                raise
            time.sleep(0.1 * tried)
    raise AssertionError


class Progress:
    """How many runs are done: by tqdm where it is there, else in a line each ten seconds. `show` is by default whether standard
    error is a terminal."""

    def __init__(self, total: int | None, show: bool | None) -> None:
        self.total, self.done, self.shown = total, 0, time.monotonic()
        self.show = sys.stderr.isatty() if show is None else show
        self.bar: Any = None
        if self.show:
            try:
                from tqdm.auto import tqdm
                self.bar = tqdm(total=total, unit="run")
            except ImportError:
                pass

    def add(self, more: int) -> None:
        """Tells so many runs more."""
        self.done += more
        if self.bar is not None:
            self.bar.update(more)
        elif self.show and time.monotonic() - self.shown > 10:
            self.shown = time.monotonic()
            print(f"{self.done} of {self.total or '?'} runs", file=sys.stderr, flush=True)

    def close(self) -> None:
        """Ends the bar."""
        if self.bar is not None:
            self.bar.close()
