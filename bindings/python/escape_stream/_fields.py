# SPDX-License-Identifier: MIT
"""The fields of a text, as a call of the library gives them and takes them."""

from collections.abc import Callable, Collection
from ctypes import byref, c_ubyte
from enum import IntEnum
from typing import TypeAlias

from escape_stream import _library


class FieldName(IntEnum):
    """Which part of a command or an image a field is. `escape_stream.h` has the value of each."""

    TEXT = 0
    PART = 1
    DIRECTORY = 2
    URI = 3
    IMPLICIT = 4
    KEY = 5
    VALUE = 6
    SELECTION = 7
    PALETTE_INDEX = 8
    DYNAMIC_COLOR = 9
    RED = 10
    GREEN = 11
    BLUE = 12
    QUERY = 13
    PROGRESS_STATE = 14
    PERCENT = 15
    APPLICATION = 16
    CLICK = 17
    PROMPT_KIND = 18
    STATUS = 19
    NAME = 20
    HIGHLIGHTED = 21
    CELL_HEIGHT = 22
    CELL_WIDTH = 23
    SCALE = 24
    SIZE = 25
    WIDTH_CELLS = 26
    WIDTH_PIXELS = 27
    WIDTH_PERCENT = 28
    HEIGHT_CELLS = 29
    HEIGHT_PIXELS = 30
    HEIGHT_PERCENT = 31
    PRESERVE_ASPECT_RATIO = 32
    INLINE = 33
    DO_NOT_MOVE_CURSOR = 34
    CONTENT = 35
    VERSION = 36
    LABEL = 37
    MEDIUM = 38
    DATA_SIZE = 39
    DATA_OFFSET = 40
    FORMAT = 41
    PIXEL_WIDTH = 42
    PIXEL_HEIGHT = 43
    IMAGE_ID = 44
    IMAGE_NUMBER = 45
    COMPRESSION = 46
    MORE_DATA_FOLLOWS = 47
    X = 48
    Y = 49
    WIDTH = 50
    HEIGHT = 51
    X_OFFSET = 52
    Y_OFFSET = 53
    COLUMNS = 54
    ROWS = 55
    PLACEMENT_ID = 56
    Z_INDEX = 57
    UNICODE_PLACEHOLDER = 58
    BASE_FRAME = 59
    FRAME_NUMBER = 60
    DURATION = 61
    COMPOSITION_MODE = 62
    BACKGROUND_PIXEL = 63
    TARGET_FRAME = 64
    SOURCE_FRAME = 65
    SOURCE_X = 66
    SOURCE_Y = 67
    DELETES_DATA = 68
    FIRST_IMAGE_ID = 69
    LAST_IMAGE_ID = 70
    VERBOSITY = 71


Value: TypeAlias = int | str | bytes
Fields: TypeAlias = tuple[tuple[FieldName, Value], ...]
Raw: TypeAlias = _library.RawOsc | _library.RawImage | _library.RawQuery


def read(
    call: Callable[..., int],
    raw: Raw,
    stream: _library.Bytes,
    as_bytes: Collection[tuple[int, int]],
) -> tuple[int, Fields]:
    """Returns the kind and the fields that a call finds in a text. Those in `as_bytes`, by kind and
    name, are no `str`."""
    text = _library.bytes_of(stream)
    # First in as much room as most need.
    room = 8, len(text)
    while True:
        rows, out = (_library.RawField * room[0])(), (c_ubyte * room[1])()
        _library.done(call(text, len(text), byref(raw), rows, room[0], out, room[1]))
        if raw.field_count <= room[0] and raw.text_length <= room[1]:
            break
        room = raw.field_count, raw.text_length
    kind, texts = raw.kind, bytes(out)
    return kind, tuple(_field(kind, row, texts, as_bytes) for row in rows[: raw.field_count])


def _field(
    kind: int, row: _library.RawField, texts: bytes, as_bytes: Collection[tuple[int, int]]
) -> tuple[FieldName, Value]:
    name = FieldName(row.name)
    if row.kind == _library.VALUE_NUMBER:
        return name, row.number
    if row.kind == _library.VALUE_SIZE:
        return name, row.length
    text = texts[row.offset : row.offset + row.length]
    return name, text if (kind, name) in as_bytes else text.decode()


def written(call: Callable[..., int], fields: Fields, *kind: int) -> bytes:
    """Returns the text that a call writes of a kind, if it takes one, and of these fields."""
    rows, texts = (_library.RawField * len(fields))(), bytearray()
    for row, (name, value) in zip(rows, fields):
        row.name = name
        if not isinstance(value, int):
            text = value.encode() if isinstance(value, str) else value
            row.kind, row.offset, row.length = _library.VALUE_TEXT, len(texts), len(text)
            texts += text
        elif name == FieldName.SIZE:
            row.kind, row.length = _library.VALUE_SIZE, _library.within(value, 64)
        else:
            row.kind, row.number = _library.VALUE_NUMBER, _library.signed(value)
    return _library.written(call, *kind, rows, len(rows), bytes(texts), len(texts))
