# SPDX-License-Identifier: MIT
"""Reads operating system commands, and compares their fields with what is wanted."""

import pytest

from escape_stream import Command, CommandKind, FieldName, Osc, command, events, prompt_value

COMMANDS = [
    (b"2;caf\xc3\xa9", CommandKind.SET_WINDOW_TITLE, [("TEXT", "café")]),
    (b"8;;", CommandKind.SET_HYPERLINK, []),
    (
        b"8;id=1;u",
        CommandKind.SET_HYPERLINK,
        [("URI", "u"), ("IMPLICIT", 0), ("KEY", "id"), ("VALUE", "1")],
    ),
    (b"52;c;aGVsbG8=", CommandKind.SET_SELECTION, [("SELECTION", 2), ("TEXT", "hello")]),
    (b"4;1;?", CommandKind.CHANGE_COLOR_NUMBER, [("PALETTE_INDEX", 1), ("QUERY", 1)]),
    (b"133;D;-1", CommandKind.PROMPT_COMMAND_STATUS, [("STATUS", -1)]),
    (
        b"1337;File=size=18446744073709551615;width=-2:AAH/",
        CommandKind.ITERM_FILE,
        [
            ("SIZE", 18446744073709551615),
            ("WIDTH_CELLS", -2),
            ("PRESERVE_ASPECT_RATIO", 1),
            ("INLINE", 0),
            ("DO_NOT_MOVE_CURSOR", 0),
            ("CONTENT", b"\0\1\xff"),
        ],
    ),
    (b"02;\xff", CommandKind.UNSPECIFIED, [("PART", b"02"), ("PART", b"\xff")]),
    (b"", CommandKind.UNSPECIFIED, []),
]


@pytest.mark.parametrize(("text", "kind", "fields"), COMMANDS)
def test_fields(
    text: bytes, kind: CommandKind, fields: list[tuple[str, int | str | bytes]]
) -> None:
    assert command(text) == Command(kind, tuple((FieldName[name], value) for name, value in fields))


def test_more_fields_than_room() -> None:
    said = command(b"104;" + b";".join(b"%d" % it for it in range(256)))
    assert said == Command(
        CommandKind.RESET_COLORS, tuple((FieldName.PALETTE_INDEX, it) for it in range(256))
    )
    # A byte that is no UTF-8 becomes a character of three.
    assert command(b"777;" + b"\xff" * 99).get(FieldName.PART) == "\N{REPLACEMENT CHARACTER}" * 99


def test_an_event() -> None:
    (title,) = (it for it in events(b"a\x1b]2;b;c\x07") if isinstance(it, Osc))
    assert command(title.text).get(FieldName.TEXT) == "b;c"
    assert command(title.text).get(FieldName.URI) is None


VALUES = [
    ("133;C;cmdline_url=ls%20-l", "cmdline_url", "ls%20-l"),
    ("133;C;cmdline_url=ls%20-l", "cmdline", None),
    ("133;C;cmdline_url=ls%20-l", "", None),
    ("133;A;redraw=0;click_events=1", "redraw", "0"),
    ("133;A;redraw=0;click_events=1", "click_events", "1"),
    ("133;A;redraw=0;click_events=1", "click_event", None),
    ("133;D", "", None),
    ("133;D;", "", None),
    ("133;D;1", "", "1"),
    ("133;D;0;err=CANCEL;aid=7", "", "0"),
    ("133;D;0;err=CANCEL;aid=7", "err", "CANCEL"),
    ("133;D;err=CANCEL", "", None),
    ("133;D;1;err=", "err", ""),
    ("133;D;1;err", "err", None),
    ("133;D;aid=1;aid=a=b", "aid", "a=b"),
    ("aid=1;aid=2", "aid", None),
    ("133", "", None),
    ("", "", None),
]


@pytest.mark.parametrize(("text", "key", "wanted"), VALUES)
def test_keys_of_prompts(text: str, key: str, wanted: str | None) -> None:
    value = prompt_value(text.encode(), key)
    assert value == (None if wanted is None else wanted.encode())
