"""The readers: sound files, every cut and odd one, and round trips."""
from collections.abc import Callable
from typing import Any

import pytest
from hypothesis import given, settings
from hypothesis import strategies as st

from conftest import EXAMPLES
from sancus import Access, Arms, Damaged, Enter, Hide, Image, Irq, Layout, Map, Module, Out, Schedule, Steps, Terms, Trace, Verdict

IMAGE = "sancus-image 1\nkey 000102030405060708090a0b0c0d0e0f\nhandler 0600\nmodule 0007 0300 0306 0400 0402\n" \
        "at 0200 3740080230400003ff3f000000000000\nend\n"
MAP = "sancus-map 1\nmodule 1 bank 1200 1256 1300 1326\npart 124e 1256 1 0 5 .sm.bank.text\nentry 124e 1 0 take\n" \
      "vector 15 0200 start\nsymbol 1324 1 local 0 balance\nsymbol 124e 1 global 0 take\nend\n"
TRACE = "12 enter 1 from 0\n13 hide 1 vector 1\n25 handler pc 0500\n30 resume 1\n33 leave 1 pc 0214\n40 out 4a\n" \
        "end 41 outside 0214" + " 0000" * 15 + "\n"
STEPS = "0 0 0200: 403a addc mov #0xaddc, r10\n  r10=addc\n2 0 0204: 5a0b add r10, r11\n3 0 0206: addc 0002 dadd 0x0002(r13), r12\n" \
        "  read 0002 0000\n12 enter 1 from 0\n12 1 0300: 4303 mov #0, r3\n13 hide 1 vector 1\n  r0=0500 r7=0000\nend 20 inside 1\n"
SCHEDULE = "100 line 0 up\n120 line 0 down\n400 serial 4a\n"
TERMS = "answer r2\nanswer r12\npublic 0400\n"
ARMS = "0304 0318 6\n0320 0330 9\n"
TEXTS: list[tuple[Callable[[str], Any], str]] = [
    (Image.parse, IMAGE), (Map.parse, MAP), (Trace, TRACE), (Steps, STEPS), (Schedule.parse, SCHEDULE), (Terms.parse, TERMS),
    (Arms.parse, ARMS)]


def test_what_texts_say() -> None:
    """Each value is read off the text by hand."""
    image = Image.parse(IMAGE)
    assert image.modules == (Module(7, range(0x300, 0x306), range(0x400, 0x402)),)
    assert image.word(0x0200) == 0x4037 and image.handler == 0x0600
    told = Map.parse(MAP)
    assert told["balance"].address == told["bank.balance"].address == 0x1324
    assert [told.at(at) for at in (0x1250, 0x124E, 0x1202, 0x1325, 0x0900)] == ["take+2", "take", ".sm.bank.entry+2", "balance+1", None]
    trace = Trace(TRACE)
    assert trace.events[:2] == (Enter(12, 1, 0), Hide(13, 1, 1)) and trace.latency(13) == 12 and trace.sent == b"J"
    assert trace.of(Out)[0].cycle == 40 and trace.end.registers is not None and trace.end.registers[0] == 0x0214
    assert Trace("5 irq 1\nend 6 inside 1\n").first(Irq) == Irq(5, 1) and trace.difference(Trace("12 enter 1 from 0\nend 13 inside 1\n")) == 2
    steps = Steps(STEPS)
    assert [step.words for step in steps] == [(0x403A, 0xADDC), (0x5A0B,), (0xADDC, 2), (0x4303,)]
    assert steps.steps[0].changed == {10: 0xADDC} and steps.steps[2].accesses == [Access(False, 2, 0, 2)]
    assert steps.arrivals == {13: {0: 0x0500, 7: 0}} and len(steps.trace) == 3
    assert Terms.parse(TERMS) == Terms((2, 12), (0x0400,)) and Arms.parse(ARMS).rows[1] == (0x0320, 0x0330, 9)
    assert Schedule().serial(400, b"J").pulse(100, width=20).text == SCHEDULE
    assert Verdict.parse("no 105e SecretBranch 0000\n") == Verdict("no", 0x105E, "SecretBranch", 0)
    assert Verdict.parse("yes 204\n").steps == 204 and not Verdict.parse("unfinished 0300 9\n")


@pytest.mark.parametrize("parse, text", TEXTS)
def test_round_trip(parse: Callable[[str], Any], text: str) -> None:
    """What is read is written as it was."""
    assert parse(text).text == text


@pytest.mark.parametrize("parse, text", TEXTS[:4])
def test_every_cut(parse: Callable[[str], Any], text: str) -> None:
    """A text with an end is refused wherever it is cut, in the line where that is."""
    for end in range(len(text)):
        with pytest.raises(Damaged):
            parse(text[:end])


@settings(max_examples=400, deadline=None)
@given(st.sampled_from(TEXTS), st.data())
def test_mutated(case: tuple[Callable[[str], Any], str], data: st.DataObject) -> None:
    """A text with one byte that is another is refused, or says another thing and is written as it is."""
    parse, text = case
    at = data.draw(st.integers(0, len(text) - 1))
    byte = data.draw(st.characters(min_codepoint=0, max_codepoint=127))
    mutated = text[:at] + byte + text[at + 1:]
    try:
        assert parse(mutated).text.rstrip("\n") == mutated.rstrip("\n")
    except Damaged as error:
        assert error.line is None or 1 <= error.line <= mutated.count("\n") + 1


@settings(max_examples=100, deadline=None)
@given(st.lists(st.tuples(st.integers(0x0200, 0xFFFF), st.binary(min_size=1, max_size=40)), max_size=5))
def test_any_image(pokes: list[tuple[int, bytes]]) -> None:
    """An image of any memory comes back from its text."""
    image = Image.parse(IMAGE)
    for at, data in pokes:
        image = image.poke(at, data[:0x10000 - at])
    assert Image.parse(image.text) == image


@settings(max_examples=100, deadline=None)
@given(st.lists(st.tuples(st.integers(0, 10 ** 6), st.booleans(), st.integers(0, 3)), max_size=20))
def test_any_schedule(events: list[tuple[int, bool, int]]) -> None:
    """A schedule of any events comes back from its text."""
    made = Schedule()
    for event in events:
        made = made.line(*event)
    assert Schedule.parse(made.text) == made


@pytest.mark.parametrize("bad", ["version = 1", "version = true\nkey = 1", "a = ["])
def test_layout(bad: str) -> None:
    """A layout of an example, and layouts that are none."""
    layout = Layout.load(EXAMPLES / "c" / "layout.toml")
    assert layout.version == 1 and layout.vectors[15] == "start"
    with pytest.raises(Damaged):
        Layout.parse(bad)


def test_a_file_is_named(tmp_path: Any) -> None:
    """The message of a damaged file has its name and its line."""
    path = tmp_path / "bad.img"
    path.write_text(IMAGE.replace("at 0200", "at 10200"))
    with pytest.raises(Damaged, match=r"bad\.img: line 5: "):
        Image.load(path)
    path.write_bytes(b"\xff\xfe")
    with pytest.raises(Damaged, match=r"bad\.img: line 1: .*ASCII"):
        Image.load(path)
