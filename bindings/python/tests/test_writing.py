# SPDX-License-Identifier: MIT
"""Writes commands, images and queries, and reads them again."""

import pytest
from rows import rows

from escape_stream import (
    Command,
    CommandKind,
    FieldName,
    Image,
    ImageKind,
    Sixel,
    SixelItem,
    SixelKind,
    TermcapQuery,
    actions,
    command,
    image,
    sixel,
    termcap_query,
)

KINDS = (Command, Image, Sixel, TermcapQuery)


def read_again(text: bytes) -> list[Command | Image | Sixel | TermcapQuery]:
    return [it for it in actions(text) if isinstance(it, KINDS)]


def test_what_tables_have_is_written_and_read_again() -> None:
    written = dict.fromkeys(KINDS, 0)
    for row in rows():
        stream = row.bytes("stream")
        if stream is None or row.bytes("limit") is not None or len(stream) > 10_000:
            continue
        for it in actions(stream):
            if not isinstance(it, KINDS):
                continue
            try:
                text = it.to_bytes()
            except ValueError:
                # A text that is not of clear characters, or not of ASCII.
                assert isinstance(it, Command | Image) and any(
                    not str(value).isascii() for _, value in it.fields
                ), row.name
                continue
            assert read_again(text) == [it], row.name
            written[type(it)] += 1
    assert (
        written[Command] > 100
        and written[Image] > 20
        and written[Sixel] > 10
        and written[TermcapQuery] > 3
    )


NOT_WRITABLE = [
    Command(CommandKind.SET_WINDOW_TITLE, ()),
    Command(CommandKind.SET_WINDOW_TITLE, ((FieldName.TEXT, "\x1b"),)),
    Command(CommandKind.RESET_COLORS, ((FieldName.PALETTE_INDEX, 256),)),
    Command(CommandKind.RESET_COLORS, ((FieldName.PALETTE_INDEX, 1 << 64),)),
    Image(ImageKind.NONE, ()),
    Image(ImageKind.DELETE_ALL, ((FieldName.DELETES_DATA, 0),)),
    Image(ImageKind.DELETE_ALL, ((FieldName.VERBOSITY, 0), (FieldName.DELETES_DATA, 0))),
    Image(ImageKind.DELETE_ALL, ((FieldName.DELETES_DATA, 1 << 64), (FieldName.VERBOSITY, 0))),
    Sixel(-1, 1, None, None, False, None, (0, 0), ()),
    Sixel(1 << 64, 1, None, None, False, None, (0, 0), ()),
    Sixel(1, 1, 5, None, False, None, (0, 0), ()),
    Sixel(1, 1, 1 << 32, 1, False, None, (0, 0), ()),
    Sixel(1, 1, None, None, False, None, (0, 0), (SixelItem(SixelKind.PIXELS, 63, 2),)),
    Sixel(1, 1, None, None, False, None, (0, 0), (SixelItem(SixelKind.PIXELS, 319, 1),)),
    Sixel(
        1,
        1,
        None,
        None,
        False,
        None,
        (0, 0),
        (SixelItem(SixelKind.DEFINE_RGB, color=1, rgb=(1, 0, 0)),),
    ),
    TermcapQuery(()),
    TermcapQuery(("\udcff",)),
]


@pytest.mark.parametrize("value", NOT_WRITABLE)
def test_what_is_not_written(value: Command | Image | Sixel | TermcapQuery) -> None:
    with pytest.raises(ValueError):
        value.to_bytes()


def test_more_text_than_room() -> None:
    names = TermcapQuery(("TN",) * 999)
    assert read_again(names.to_bytes()) == [names]
    title = command(b"2;" + b"a" * 9999)
    assert read_again(title.to_bytes()) == [title]
    payload = image(b"Gf=24;" + b"A" * 9999)
    assert payload is not None and read_again(payload.to_bytes()) == [payload]
    picture = sixel([], b"~-" * 9999)
    assert read_again(picture.to_bytes()) == [picture]
    assert termcap_query(b"").to_bytes() == b"\x1bP+q\x1b\\"
