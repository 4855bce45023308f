# SPDX-License-Identifier: MIT
"""Finds each control string of docs/FUNCTIONS.md under its name."""

import re

from rows import TOP

from escape_stream import (
    CONTROL_STRINGS,
    Apc,
    Dcs,
    Osc,
    control_string,
    control_string_named,
    events,
)


def rows(opener: str) -> list[list[str]]:
    """Returns the rows of the page whose sequence begins with this, cell by cell; of the first the
    words after the opener, without `..`."""
    page = (TOP / "docs/FUNCTIONS.md").read_text()
    lines = [line for line in page.splitlines() if line.startswith(f"| `{opener} ")]
    table = [[it.replace("\\|", "|") for it in re.split(r" \| ", line[2:])] for line in lines]
    return [[re.sub(r" \.\.|`", "", row[0][len(opener) + 2 :]), *row[1:]] for row in table]


def check(event: Osc | Dcs | Apc, data: bytes, row: list[str]) -> None:
    found = control_string(event, data)
    assert found is not None, event
    assert (found.name, found.phrase) == (row[1], row[2].partition("; alone:")[0])
    assert control_string_named(found.name) is found and found in CONTROL_STRINGS


def test_operating_system_commands() -> None:
    table = rows("OSC")
    for row in table:
        text = row[0].replace(" ", "")
        for each in (text, text + ";x"):
            check(Osc(each.encode()), b"", row)
        number = text.partition(";")[0]
        found = control_string_named(row[1])
        assert found is not None
        assert found.number == (int(number) if number.isdigit() else None)
    assert len(table) == sum(it.name.startswith("OSC") for it in CONTROL_STRINGS)


def test_device_control_strings() -> None:
    table = rows("DCS")
    for row in table:
        words = row[0].replace("..", "").split()
        digits = [it for it in words if it.isdigit()]
        marks = [it for it in words if len(it) == 1 and not it.isdigit()]
        data = "".join(it for it in words if len(it) > 1 and not it.isdigit())
        header = Dcs("".join(digits).encode(), "".join(marks[:-1]), marks[-1])
        check(header, data.encode(), row)
    assert len(table) > 30


def test_application_program_commands() -> None:
    table = rows("APC")
    for row in table:
        check(Apc(row[0].replace(" ", "").encode()), b"", row)
    assert len(table) == 5


def test_spellings() -> None:
    """xterm's list, "Operating System Commands", and kitty's graphics protocol: forms of a text
    that mean the same."""
    for text, name in (
        ("52;c;YQ==", "OSC 52"),
        ("052;c;YQ==", "OSC 52"),
        ("133;D;1;aid=a", "OSC 133;D"),
        ("133;Dx", "OSC 133"),
        ("9;4;1;50", "OSC 9;4;1"),
        ("9;40", "OSC 9"),
        ("1337;File=name=YQ==:YQ==", "OSC 1337;File"),
        ("Ltitle", "OSC L"),
    ):
        found = control_string(Osc(text.encode()))
        assert found is not None and found.name == name, text
    for text in ("", ";", "4711;x", "52c", "x", "9" * 5000):
        assert control_string(Osc(text.encode())) is None, text
    for text, name in (
        ("Ga=d,d=a", "kitty image a=d"),
        ("Gi=1,a=f;AAAA", "kitty image a=f"),
        ("Ga=dd", "kitty image"),
        ("G;a=d", "kitty image"),
    ):
        found = control_string(Apc(text.encode()))
        assert found is not None and found.name == name, text
    assert control_string(Apc(b"title")) is None and control_string(Apc(b"")) is None
    assert control_string(Dcs(b"", "$", "w")) is None
    assert control_string(Dcs(b"", "$%", "q", has_more=True)) is None
    assert control_string_named("OSC") is None


def test_events() -> None:
    stream = b"\x1b]104\x07\x1bP1$r0m\x1b\\\x1bP$qm\x1b\\\x1b_Ga=d\x1b\\\x1bP2$ux\x1b\\"
    strings = [it for it in events(stream) if isinstance(it, Osc | Dcs | Apc)]
    names = [it.name for it in map(control_string, strings) if it is not None]
    assert names == ["OSC 104", "DECRPSS", "DECRQSS", "kitty image a=d", "DECTABSR"]
