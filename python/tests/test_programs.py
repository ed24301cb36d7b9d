"""What the programs say, by the pages of examples/, and how they refuse."""
import os
import pickle
import shutil
from pathlib import Path

import pytest

import sancus
from conftest import EXAMPLES
from sancus import Arms, Enter, Handler, Hide, Image, Leave, Map, Resume, Schedule, Terms, Trace, program


def test_a_module_under_a_pulse() -> None:
    """README's trace of examples/interrupts, event by event."""
    image = Image.load(EXAMPLES / "interrupts" / "called.img")
    trace = image.run(Schedule.load(EXAMPLES / "interrupts" / "pulse_inside.txt"), 40)
    assert trace.events[:-1] == (Enter(12, 1, 0), Hide(13, 1, 1), Handler(25, 0x0500), Resume(30, 1), Leave(33, 1, 0x0214))
    assert trace == image.run(Schedule().pulse(13, width=1), 40) and trace.end.cycle == 40
    steps = image.steps(Schedule().pulse(13, width=1), 40)
    assert steps.trace == trace and steps.arrivals[13] == {0: 0x0500, 2: 0, 7: 0}


def test_from_c_to_a_trace() -> None:
    """README's module in C: it sends 2e in cycle 107. A name of the map is poked."""
    image = sancus.link(EXAMPLES / "c" / "layout.toml", [EXAMPLES / "c" / "meter.o"])
    trace = image.run(cycles=120)
    assert trace.sent == b"\x2e" and trace.first(Leave) == Leave(102, 1, 0x022A)
    assert isinstance(image.map, Map)
    place = image.map["sum"].address if any(s.name == "sum" for s in image.map.symbols) else image.modules[0].data.start
    assert image.poke(place, 0x1234).word(place) == 0x1234
    assert image.differs(image.poke(place, b"\xff\xfe")) == [range(place, place + 2)]


def test_verdicts() -> None:
    """The verdicts of examples/channel and examples/answers."""
    module = Image.load(EXAMPLES / "channel" / "module_0.img")
    assert module.balance(1, Arms.load(EXAMPLES / "channel" / "arms.txt"))
    refused = module.check(1)
    assert not refused and (refused.address, refused.reason) == (0x0306, "SecretBranch")
    mac = sancus.link(EXAMPLES / "answers" / "mac.toml", [EXAMPLES / "answers" / "mac.o"])
    assert mac.released(1, Terms.load(EXAMPLES / "answers" / "mac.terms")) and not mac.released(1, Terms())


@pytest.mark.skipif("unroll" not in program.commands(lab=True), reason="sancus-lab has no unroll")
def test_unroll() -> None:
    """A branch whose arms take equal times needs no certificate where all paths are followed; few steps do not suffice."""
    mac = sancus.link(EXAMPLES / "answers" / "mac.toml", [EXAMPLES / "answers" / "mac.o"])
    terms = Terms.load(EXAMPLES / "answers" / "mac.terms")
    assert mac.unroll(1, terms) and mac.unroll(1, terms, steps=1).answer == "unfinished"


def test_attestation() -> None:
    """The page of examples/attestation: a module is genuine, and one that differs in a byte is wrong."""
    image = Image.load(EXAMPLES / "attestation" / "tagger.img")
    rows = [line.split(" ") for line in (EXAMPLES / "attestation" / "challenges.txt").read_text().splitlines()]
    challenges = [(int(cycle), bytes.fromhex(nonce)) for cycle, nonce in rows]
    trace = image.run(sancus.attest(challenges), 9500)
    provider, _ = image.keys(1)
    assert provider.hex() == "4288d2bf49ac628155a630f7dab1d6da"
    assert image.vendor(1, provider, challenges, trace) == ["genuine"] * 3
    changed = Image.load(EXAMPLES / "attestation" / "changed.img").run(sancus.attest(challenges), 9500)
    assert image.vendor(1, provider, challenges, changed) == ["wrong"] * 3
    assert image.vendor(1, provider, challenges, image.run(sancus.attest(challenges), 6000)) == ["genuine", "genuine", "missing"]


def test_refusals(tmp_path: Path) -> None:
    """Each refusal is its own exception, with the fault, its words and the file, and can be sent between processes."""
    source = tmp_path / "p.txt"
    source.write_text("section .text code\nnop\n")
    with pytest.raises(sancus.BadFile) as bad:
        sancus.assemble(source)
    assert (bad.value.fault, bad.value.words, bad.value.file, bad.value.status) == ("Line", ["2"], str(source), 4)
    with pytest.raises(sancus.NoLink) as link:
        sancus.link(EXAMPLES / "runtime" / "layout.toml", [EXAMPLES / "runtime" / "product.o"])
    assert link.value.fault == "Undefined" and link.value.words[:1] == ["0"]
    again = pickle.loads(pickle.dumps(bad.value))
    assert (type(again), again.line, again.file) == (sancus.BadFile, bad.value.line, bad.value.file)
    with pytest.raises(sancus.Refused, match="usage"):
        Image.load(EXAMPLES / "first.img").run(cycles=-1)


def test_the_program_that_is_found(tmp_path: Path, monkeypatch: pytest.MonkeyPatch) -> None:
    """A copy of the package in a clone takes release/sancus by its hash alone; SANCUS comes first."""
    top = tmp_path / "clone"
    package = shutil.copytree(Path(sancus.__file__).parent, top / "python" / "src" / "sancus")
    (top / "release").mkdir()
    (top / "release" / "sancus").write_bytes(b"#!/bin/sh\n")
    (top / "release" / "SHA256SUMS").write_text(f"{'0' * 64}  sancus\n")
    monkeypatch.setattr(program, "__file__", str(package / "program.py"))
    with pytest.raises(sancus.ProgramMissing, match="is not the program"):
        program.released("sancus")
    monkeypatch.setenv("SANCUS", os.fspath(tmp_path / "none"))
    with pytest.raises(sancus.ProgramMissing, match="SANCUS="):
        program.find.__wrapped__("sancus")


def test_a_frame() -> None:
    """A trace as a data frame has a row for each event."""
    pytest.importorskip("pandas")
    frame = Trace("5 irq 1\n11 reti\nend 12 inside 1\n").frame()
    assert list(frame["event"]) == ["irq", "reti", "end"] and list(frame["cycle"]) == [5, 11, 12]
