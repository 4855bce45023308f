# SPDX-License-Identifier: MIT
"""Finds each function of docs/FUNCTIONS.md under its name."""

import re

from rows import TOP

from escape_stream import Control, Csi, Escape, events, function, value

EFFECTS = {
    "screen": (True, False),
    "answered": (False, True),
    "report": (False, False),
    "other": (False, False),
}


def rows(opener: str) -> list[list[str]]:
    """Returns the rows of the page whose sequence begins with this, cell by cell."""
    page = (TOP / "docs/FUNCTIONS.md").read_text()
    lines = [line.split(" | ") for line in page.splitlines() if line.startswith(f"| `{opener} ")]
    return [
        [re.sub(r"^\| |^`|`$| \|$", "", it).replace("\\|", "|").strip("`") for it in line]
        for line in lines
    ]


def control_sequence(words: str, parameters: str) -> bytes:
    """Returns a control sequence: `..` are as many parameters as are named, `SP` is a space, and
    any other word is itself."""
    spelled = {"CSI": "", "SP": " ", "..": ";".join("1" for _ in parameters.split(";"))}
    return "".join(["\x1b[", *(spelled.get(it, it) for it in words.split())]).encode()


def escape_sequence(words: str) -> bytes:
    """Returns an escape sequence: `..` is any final byte, `SP` is a space, and any other word is
    itself."""
    spelled = {"ESC": "", "SP": " ", "..": "B"}
    return "".join(["\x1b", *(spelled.get(it, it) for it in words.split())]).encode()


def check(stream: bytes, name: str, phrase: str, effect: str) -> None:
    (found,) = events(stream)
    assert isinstance(found, Csi | Escape)
    said = function(found)
    assert said is not None, stream
    assert (said.name, said.phrase, said.changes_screen, said.is_answered) == (
        name,
        phrase,
        *EFFECTS[effect],
    )


def test_control_sequences() -> None:
    table = rows("CSI")
    for sequence, name, phrase, parameters, effect, _ in table:
        check(control_sequence(sequence, parameters), name, phrase, effect)
    assert len(table) > 150


def test_escape_sequences() -> None:
    # Those that open a string are no events of their own, and of two intermediates none is found.
    table = [
        row
        for row in rows("ESC")
        if row[2] not in ("DCS", "SOS", "CSI", "OSC", "PM", "APC") and len(row[0].split()) < 4
    ]
    for sequence, _, name, phrase, effect, _ in table:
        check(escape_sequence(sequence), name, phrase, effect)
    assert len(table) > 50


def test_no_function() -> None:
    for stream in (
        b"\x1b[<>1z",
        b"\x1b[1  x",
        b"\x1b[?1;2z",
        b"\x1b %&x",
        b"\x1b[" + b"1;" * 200 + b"m",
    ):
        for found in events(stream):
            assert isinstance(found, Csi | Escape) and function(found) is None, stream


def test_controls() -> None:
    names = {0x07: "BEL", 0x0A: "LF", 0x1B: "ESC", 0x7F: "DEL", 0x84: "IND", 0x9C: "ST"}
    for byte, name in names.items():
        said = function(Control(byte))
        assert said is not None and said.name == name
    assert function(Control(0x84)) == function(Escape("", "D"))
    assert [function(Control(it)) for it in (0x61, 0xA0, 0xFF)] == [None] * 3


# The values that a terminal takes for the first three parameters, by ECMA-48, DEC and xterm.
VALUES = [
    (b"\x1b[H", (1, 1, None)),
    (b"\x1b[;5H", (1, 5, None)),
    (b"\x1b[0;0H", (1, 1, None)),
    (b"\x1b[0A", (1, None, None)),
    (b"\x1b[7A", (7, None, None)),
    (b"\x1b[J", (0, None, None)),
    (b"\x1b[2J", (2, None, None)),
    (b"\x1b[m", (0, 0, 0)),
    (b"\x1b[1;;4m", (1, 0, 4)),
    (b"\x1b[r", (1, None, None)),
    (b"\x1b[3;0r", (3, None, None)),
    (b"\x1b[3;20r", (3, 20, None)),
    (b"\x1b[5 q", (5, None, None)),
    (b"\x1b[?25h", (25, None, None)),
    (b"\x1b[99999999999999999999A", (2**63 - 1, None, None)),
    (b"\x1b[3;4~", (3, 4, None)),
]


def test_values() -> None:
    for sequence, wanted in VALUES:
        (event,) = events(sequence)
        assert isinstance(event, Csi)
        assert tuple(value(event, it) for it in range(3)) == wanted, sequence
