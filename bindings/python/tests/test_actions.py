# SPDX-License-Identifier: MIT
"""Reads images, queries and whole streams, and compares what they say with what is wanted."""

import pytest
from rows import rows

from escape_stream import (
    Command,
    Control,
    DeviceControl,
    FieldName,
    Image,
    ImageKind,
    Medium,
    Sixel,
    SixelItem,
    SixelKind,
    TermcapQuery,
    actions,
    image,
    sixel,
    termcap_query,
)
from escape_stream._events import Limit

IMAGES = [
    (b"", None),
    (b"Ga=z", None),
    (
        b"Ga=d,d=Z,z=-3",
        (ImageKind.DELETE_Z, [("Z_INDEX", -3), ("DELETES_DATA", 1), ("VERBOSITY", 0)]),
    ),
    (
        b"Ga=q,t=f,f=24,s=4294967295;L3RtcA==",
        (
            ImageKind.QUERY,
            [
                ("CONTENT", "/tmp"),
                ("MEDIUM", Medium.FILE),
                ("FORMAT", 24),
                ("PIXEL_WIDTH", 4294967295),
                ("COMPRESSION", 0),
                ("MORE_DATA_FOLLOWS", 0),
            ],
        ),
    ),
]


@pytest.mark.parametrize(("text", "wanted"), IMAGES)
def test_images(text: bytes, wanted: tuple[ImageKind, list[tuple[str, int | str]]] | None) -> None:
    found = image(text)
    if wanted is None:
        assert found is None
    else:
        assert found == Image(
            wanted[0], tuple((FieldName[name], value) for name, value in wanted[1])
        )


def test_a_sixel_image() -> None:
    assert sixel([], b"") == Sixel(2, 1, None, None, False, None, (0, 0), ())
    found = sixel([9, 1, 3], b'"1;1;3;7#1;2;100;0;50#2;1;120;50;60~!3?$-#7')
    assert (found.pan, found.pixel_width, found.pixel_height, found.dimensions) == (1, 3, 7, (3, 7))
    assert (found.background_is_transparent, found.horizontal_grid_size) == (True, 3)
    assert found.items == (
        SixelItem(SixelKind.DEFINE_RGB, color=1, rgb=(255, 0, 127)),
        SixelItem(SixelKind.DEFINE_HSL, color=2, hls=(120, 50, 60)),
        SixelItem(SixelKind.PIXELS, 63, 1),
        SixelItem(SixelKind.REPEAT, 0, 3),
        SixelItem(SixelKind.CARRIAGE_RETURN),
        SixelItem(SixelKind.NEW_LINE),
        SixelItem(SixelKind.SELECT, color=7),
    )


def test_a_query() -> None:
    assert termcap_query(b"") == TermcapQuery(("",))
    assert termcap_query(b";".join([b"544e"] * 99)).names == ("TN",) * 99


# The actions of the tables that a value is for, by how they begin.
NAMES: dict[str, type] = {
    "OperatingSystemCommand(": Command,
    "KittyImage(": Image,
    "Sixel(": Sixel,
    "XtGetTcap(": TermcapQuery,
    "DeviceControl(ShortDeviceControl(": DeviceControl,
    "Control(": Control,
}


def is_named(word: str, text: str, name: str) -> bool:
    """Returns whether a line is of an action that begins so. A line `kept` is a command that is
    kept as its parts."""
    return text.startswith(name) if word == "action" else name == "OperatingSystemCommand("


def test_actions_are_as_in_the_tables() -> None:
    count = 0
    for row in rows():
        stream = row.bytes("stream")
        words = [it.split(None, 1) for it in row.lines if it.startswith(("action ", "kept "))]
        if stream is None or row.bytes("limit") is not None or len(stream) > 10_000 or not words:
            continue
        wanted = [
            kind
            for word, text in words
            for name, kind in NAMES.items()
            if is_named(word, text, name)
        ]
        kinds = tuple(NAMES.values())
        streams: list[bytes | list[bytes]] = [stream, [bytes([it]) for it in stream]]
        for chunks in streams:
            found = [it for it in actions(chunks) if isinstance(it, kinds)]
            # Three controls have no name, and are no actions of the tables.
            named = [
                type(it)
                for it in found
                if not (isinstance(it, Control) and it.byte in (0x80, 0x81, 0x99))
            ]
            assert named == wanted, row.name
        count += 1
    assert count > 200


def test_longer_data_is_passed_over() -> None:
    found = list(actions(b"\x1bPq~~~~\x1b\\\x1bPq~~~\x1b\\", data_limit=3))
    assert Limit() in found
    assert sum(isinstance(it, Sixel) for it in found) == 1
