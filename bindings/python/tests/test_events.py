# SPDX-License-Identifier: MIT
"""The events of streams, by ECMA-48 and docs/DEFINITIONS.md, in chunks of every size."""

import pytest
from rows import cuts

from escape_stream import (
    Apc,
    Control,
    Csi,
    Data,
    Dcs,
    DcsEnd,
    Escape,
    Event,
    Limit,
    Osc,
    Parser,
    Text,
    events,
    joined,
)

ST = Escape("", "\\")
MOST = 2**63 - 1

STREAMS: list[tuple[bytes, list[Event]]] = [
    (b"", []),
    (b"a\r\n~", [Text("a"), Control(0x0D), Control(0x0A), Text("~")]),
    ("é€🚀".encode(), [Text("é€🚀")]),
    (b"a\xef\xbcb\xff", [Text("a\ufffdb\ufffd")]),
    (b"\x85\xc2\x84", [Control(0x85), Control(0x84)]),
    (
        b"\x1b7\x1b(B\x1b $%&x",
        [Escape("", "7"), Escape("(", "B"), Escape(" $", "x", has_more=True)],
    ),
    (b"\x1b[m", [Csi("", (), "", "m")]),
    (b"\x1b[0;31m", [Csi("", ((0,), (31,)), "", "m")]),
    (b"\x1b[;H", [Csi("", ((None,), (None,)), "", "H")]),
    (b"\x1b[38:2::1:2:3;1m", [Csi("", ((38, 2, None, 1, 2, 3), (1,)), "", "m")]),
    (b"\x9b?25h\xc2\x9b?25l", [Csi("?", ((25,),), "", "h"), Csi("?", ((25,),), "", "l")]),
    (
        b"\x1b[2 q\x1b[>c\x1b[!p",
        [Csi("", ((2,),), " ", "q"), Csi(">", (), "", "c"), Csi("", (), "!", "p")],
    ),
    (b"\x1b[99999999999999999999A", [Csi("", ((MOST,),), "", "A")]),
    (b"\x1b]0;a\xc3\xa9\x07b", [Osc(b"0;a\xc3\xa9"), Text("b")]),
    (b"\x1b]\x1b\\", [Osc(b""), ST]),
    (b"\x1bP1;;2$qab\x1b\\", [Dcs(b"1;;2", "$", "q"), Data(b"ab"), DcsEnd(), ST]),
    (b"\x1bP>q\xff\x9c", [Dcs(b"", ">", "q"), Data(b"\xff"), DcsEnd()]),
    (b"\x1b_Ga=q\x1b\\\x1b^x\x1b\\", [Apc(b"Ga=q"), ST, ST]),
    (b"\x1b[3\x18m\x1b]2;a", [Control(0x18), Text("m")]),
]


ENDS: list[tuple[bytes, list[int | None]]] = [
    (b"\x1b]2;a\x07\x1b]2;a\x18\x1b]2;a\x1a", [0x07, 0x18, 0x1A]),
    (b"\x1b]2;a\x1b\\\x1b_a\x1b[m\x1bPa\x1bx", [0x1B, 0x1B, 0x1B]),
    (b"\x1b]2;a\x9c\x1b_a\xc2\x9c\x1bPa\x9b", [0x9C, 0x9C, 0x9B]),
    (b"\x1b]2;too long\x07\x1bPq\x18", [0x07, 0x18]),
]


@pytest.mark.parametrize(("stream", "wanted"), ENDS)
def test_the_ends_of_strings(stream: bytes, wanted: list[int | None]) -> None:
    for chunks in cuts(stream):
        found = events(chunks, limit=6)
        ended = [it for it in found if isinstance(it, (Osc, Apc, DcsEnd, Limit))]
        assert [it.end for it in ended] == wanted, chunks


@pytest.mark.parametrize(("stream", "wanted"), STREAMS)
def test_streams(stream: bytes, wanted: list[Event]) -> None:
    for chunks in cuts(stream):
        assert list(joined(events(chunks))) == wanted, chunks
    assert list(joined(events(bytearray(stream)))) == wanted
    assert list(joined(events(memoryview(stream)))) == wanted


def test_more_entries_than_are_kept() -> None:
    (whole,), (cut,) = (list(events(b"\x1b[" + b"1;" * count + b"m")) for count in (127, 200))
    assert isinstance(whole, Csi) and not whole.has_more and len(whole.parameters) == 128
    assert isinstance(cut, Csi) and cut.has_more


# A chunk, and whether nothing is unfinished after it.
CHUNKS: list[tuple[bytes, bool]] = [
    (b"a", True),
    (b"\x1b", False),
    (b"[1;3", False),
    (b"1m", True),
    (b"\xc3", False),
    (b"\xa9", True),
    (b"\x1b]0;t", False),
    (b"\x07", True),
]


def test_ground() -> None:
    parser = Parser()
    assert parser.is_ground()
    for chunk, wanted in CHUNKS:
        parser.feed(chunk)
        assert parser.is_ground() == wanted


def test_limits() -> None:
    stream = b"\x1b]0;ab\x07\x1b]0;abc\x07c\x1bP12345qdata\x1b\\"
    wanted = [Osc(b"0;ab"), Limit(), Text("c"), Limit(), ST]
    for chunks in cuts(stream):
        assert list(joined(events(chunks, limit=4))) == wanted, chunks
    assert list(events(b"\x1b]\x07\x1b]a\x07", limit=0)) == [Osc(b""), Limit()]
    for limit in (-1, 1 << 62):
        with pytest.raises(ValueError, match="limit"):
            Parser(limit)


def test_long_streams() -> None:
    stream = b"text \x1b[1mbold\x1b[m\n" * 20_000
    found = list(joined(events(stream)))
    assert len(found) == 100_000 and found[:5] * 20_000 == found


def test_numbers() -> None:
    csi = Csi("", ((2,), (None, 5), (0,)), "", "H")
    assert [csi.number(it, 1) for it in range(-1, 4)] == [1, 2, 1, 0, 1]
    assert Dcs(b"", "", "q").numbers == ()
    assert Dcs(b"1;;003;" + b"9" * 5000, "", "q").numbers == (1, None, 3, MOST)
    assert Osc(b"8;;http://e.com").parts == [b"8", b"", b"http://e.com"]


def test_what_is_no_stream() -> None:
    for wrong in (5, "text"):
        with pytest.raises(TypeError):
            Parser().feed(wrong)  # type: ignore[arg-type]
