"""Sweeps and hunts: what they find, and that no row is lost or doubled where workers and schedulers end."""
import multiprocessing
import os
import signal
import sqlite3
import threading
import time
from collections.abc import Iterator
from pathlib import Path
from typing import Any

import pytest

import sancus
from conftest import EXAMPLES
from sancus import Image, Target, Trace, latency, sweep

KINDS = ("plain", "module")
PULSES = range(300)


def images(kind: str) -> dict[str, Image]:
    """The images of examples/channel of a kind, by their secret."""
    return {str(n): Image.load(EXAMPLES / "channel" / f"{kind}_{n}.img") for n in (0, 1)}


def slow(trace: Trace, pulse: int) -> dict[str, Any]:
    """Takes its time, so that there is something to end."""
    time.sleep(0.002)
    return latency(trace, pulse)


def in_file(path: Path) -> list[Any]:
    """The rows of a file, without who observed them."""
    with sqlite3.connect(path) as db:
        return db.execute("SELECT program, image, pulse, schedule, bound, trace, observed FROM runs ORDER BY 2, 3, 4").fetchall()


@pytest.fixture(scope="module")
def plain(tmp_path_factory: pytest.TempPathFactory) -> list[Any]:
    """The rows that one process makes undisturbed."""
    path = tmp_path_factory.mktemp("plain") / "rows.sqlite"
    sweep(images("plain"), PULSES, limit=120, observe=slow, jobs=1, store=path)
    rows = in_file(path)
    assert len(rows) == 2 * len(PULSES)
    return rows


def test_a_sweep() -> None:
    """The page of examples/channel: pulses 17 and 18 tell plain code's secret, none the module's, which waits 12 cycles."""
    assert sweep(images("plain"), range(61), limit=60, jobs=2).differ() == [17, 18]
    results = sweep(images("module"), range(13, 25), limit=60, jobs=2)
    assert results.differ() == [] and {row["latency"] for row in results} == {12}


def test_it_goes_on(tmp_path: Path, monkeypatch: pytest.MonkeyPatch) -> None:
    """A second call runs what the first one left, and no more."""
    path = tmp_path / "rows.sqlite"
    sweep(images("plain"), range(10), limit=60, jobs=1, store=path)
    first = in_file(path)
    results = sweep(images("plain"), range(20), limit=60, jobs=1, store=path)
    assert len(list(results)) == 40 and [row for row in in_file(path) if row[2] < 10] == first

    def none(work: Any, tasks: Iterator[Any], client: Any, jobs: Any) -> Iterator[Any]:
        assert not list(tasks)
        return iter(())

    monkeypatch.setattr("sancus.sweeping.spread", none)
    assert len(list(sweep(images("plain"), range(20), limit=60, store=path))) == 40


def ended_after(rows: int, path: Path, pids: Any) -> threading.Thread:
    """Ends a worker by its number when so many rows are there."""
    def wait() -> None:
        for _ in range(3000):
            if path.exists() and len(in_file(path)) >= rows:
                os.kill(pids()[0], signal.SIGKILL)
                return
            time.sleep(0.01)
    thread = threading.Thread(target=wait)
    thread.start()
    return thread


def test_a_process_that_is_killed(tmp_path: Path, plain: list[Any]) -> None:
    """The pool is made again, and the rows are those of an undisturbed sweep."""
    path = tmp_path / "rows.sqlite"
    sweep({}, [], limit=120, store=path)
    thread = ended_after(64, path, lambda: [child.pid for child in multiprocessing.active_children()])
    sweep(images("plain"), PULSES, limit=120, observe=slow, jobs=2, batch=16, store=path)
    thread.join()
    assert in_file(path) == plain


@pytest.fixture
def cluster() -> Iterator[Any]:
    """A LocalCluster of two processes."""
    distributed = pytest.importorskip("distributed")
    with distributed.LocalCluster(n_workers=2, threads_per_worker=1, dashboard_address=None) as made:
        yield made


def test_a_worker_that_is_killed(tmp_path: Path, plain: list[Any], cluster: Any) -> None:
    """The scheduler gives its tasks to others, and the rows are those of an undisturbed sweep."""
    distributed: Any = pytest.importorskip("distributed")
    path = tmp_path / "rows.sqlite"
    sweep({}, [], limit=120, store=path)
    with distributed.Client(cluster) as client:
        thread = ended_after(64, path, lambda: list(client.run(os.getpid).values()))
        sweep(images("plain"), PULSES, limit=120, observe=slow, client=client, batch=16, store=path)
    thread.join()
    assert in_file(path) == plain


def test_a_scheduler_that_ends(tmp_path: Path, plain: list[Any]) -> None:
    """What was stored stays, the caller is told, and a call with another Client goes on."""
    distributed = pytest.importorskip("distributed")
    path = tmp_path / "rows.sqlite"
    made = distributed.LocalCluster(n_workers=2, threads_per_worker=1, dashboard_address=None)
    client = distributed.Client(made)

    def end() -> None:
        while not path.exists() or len(in_file(path)) < 64:
            time.sleep(0.01)
        made.close()

    thread = threading.Thread(target=end)
    sweep({}, [], limit=120, store=path)
    thread.start()
    with pytest.raises(sancus.SchedulerLost):
        sweep(images("plain"), PULSES, limit=120, observe=slow, client=client, batch=16, store=path)
    thread.join()
    client.close()
    kept = in_file(path)
    assert 0 < len(kept) < len(plain) and all(row in plain for row in kept)
    sweep(images("plain"), PULSES, limit=120, observe=slow, jobs=2, store=path)
    assert in_file(path) == plain


def test_a_hunt(tmp_path: Path) -> None:
    """Plain code is told apart by single interrupts of either kind, a module by none; a second call finds the same rows."""
    found = {}
    for kind in KINDS:
        target = Target(images(kind), code=(0x0300, 0x020E)) if kind == "plain" else Target(images(kind), module=1)
        one, = sancus.hunt([target], single=True, handler="returns", jobs=2, store=tmp_path / "hunt.sqlite")
        found[kind] = one
    assert not found["module"] and {(one.plan.kind, one.plan.first) for one in found["plain"].found} == {
        (kind, cycle) for kind in ("line", "timer") for cycle in (53, 54)}
    assert len(found["plain"].plans) == 2 * (found["plain"].last - found["plain"].first + 1)
    again, = sancus.hunt([found["plain"].target], single=True, handler="returns", jobs=1, store=tmp_path / "hunt.sqlite")
    assert again.found == found["plain"].found
