# SPDX-License-Identifier: MIT
"""The values of device control strings, sixel images and termcap queries; and the strings of
such values."""

from collections.abc import Sequence
from ctypes import byref, c_int64
from dataclasses import dataclass
from enum import IntEnum

from escape_stream import _library
from escape_stream._fields import FieldName, read, written


class SixelKind(IntEnum):
    """The kind of an item of a sixel image."""

    PIXELS = 0
    """Six pixels."""
    REPEAT = 1
    """Six pixels, `count` times."""
    DEFINE_RGB = 2
    """Gives a colour to a number, and selects it."""
    DEFINE_HSL = 3
    """The same."""
    SELECT = 4
    """Selects the colour of a number."""
    CARRIAGE_RETURN = 5
    """Back to the start of the line, over which is drawn."""
    NEW_LINE = 6
    """To the start of the next band of six lines."""


@dataclass(frozen=True, slots=True)
class SixelItem:
    """An item of a sixel image. A value that has no meaning for its kind is 0."""

    kind: SixelKind
    pixels: int = 0
    """Six, one above the other, as bits: the top one the lowest."""
    count: int = 0
    """How many times they come."""
    color: int = 0
    """The number of a colour."""
    rgb: tuple[int, int, int] = (0, 0, 0)
    """Red, green and blue, from 0 to 255."""
    hls: tuple[int, int, int] = (0, 0, 0)
    """Hue, from 0 to 360, lightness and saturation, from 0 to 100; larger ones are as they were
    written."""


@dataclass(frozen=True, slots=True)
class Sixel:
    """A sixel image."""

    pan: int
    """A pixel is so many units high."""
    pad: int
    """And so many wide."""
    pixel_width: int | None
    """As raster attributes say."""
    pixel_height: int | None
    background_is_transparent: bool
    """Whether pixels of 0 leave the old pixels."""
    horizontal_grid_size: int | None
    dimensions: tuple[int, int]
    """Width and height: both sizes of the raster attributes, and else those of the drawn pixels."""
    items: tuple[SixelItem, ...]

    def to_bytes(self) -> bytes:
        """Returns the image, from ESC P to ESC \\ : `sixel` reads its parameters and its
        data as this value.

        The `dimensions` follow from the rest, and are not looked at.

        >>> from escape_stream import sixel
        >>> sixel([9, 1], b"!3~").to_bytes()
        b'\\x1bP7;1q!3~\\x1b\\\\'

        Raises ValueError if no image has these values, or if its text would not read back as
        it, as that of a number that is negative; MemoryError if a request for memory was
        refused.
        """
        raw, rows = _library.RawSixel(), (_library.RawSixelItem * len(self.items))(
            *map(_row, self.items)
        )
        raw.pan, raw.pad = _library.signed(self.pan), _library.signed(self.pad)
        raw.background_is_transparent = self.background_is_transparent
        if self.horizontal_grid_size is not None:
            raw.has_grid_size, raw.grid_size = True, _library.signed(self.horizontal_grid_size)
        if self.pixel_width is not None:
            raw.has_pixel_width, raw.pixel_width = True, _library.within(self.pixel_width, 32)
        if self.pixel_height is not None:
            raw.has_pixel_height, raw.pixel_height = True, _library.within(self.pixel_height, 32)
        return _library.written(_library.write_sixel, byref(raw), rows, len(rows))


@dataclass(frozen=True, slots=True)
class TermcapQuery:
    """The names of capabilities that are asked for (XTGETTCAP), at least one."""

    names: tuple[str, ...]

    def to_bytes(self) -> bytes:
        """Returns the query, from ESC P + q to ESC \\ : `termcap_query` reads the data
        between these as this value.

        >>> from escape_stream import TermcapQuery
        >>> TermcapQuery(("TN", "Co")).to_bytes()
        b'\\x1bP+q544e;436f\\x1b\\\\'

        Raises ValueError if there is no name; MemoryError if a request for memory was
        refused.
        """
        return written(_library.write_tcap, tuple((FieldName.NAME, name) for name in self.names))


def termcap_query(data: _library.Bytes) -> TermcapQuery:
    """Returns the query of the data of a device control string with `+q`. Any bytes are such data.

    >>> from escape_stream import termcap_query
    >>> termcap_query(b"544e;436f").names
    ('TN', 'Co')

    Raises MemoryError if a request for memory was refused.
    """
    _, fields = read(_library.read_tcap, _library.RawQuery(), data, ())
    return TermcapQuery(tuple(str(value) for _, value in fields))


def sixel(parameters: Sequence[int], data: _library.Bytes) -> Sixel:
    """Returns the image of a device control string with `q`: of its parameters and its data. Any
    are such an image.

    >>> from escape_stream import sixel
    >>> sixel([9, 1], b"~!3?").dimensions
    (4, 6)

    Raises MemoryError if a request for memory was refused.
    """
    data, raw = _library.bytes_of(data), _library.RawSixel()
    numbers = (c_int64 * len(parameters))(*parameters)
    rows = (_library.RawSixelItem * len(data))()
    _library.done(
        _library.read_sixel(numbers, len(numbers), data, len(data), byref(raw), rows, len(rows))
    )
    if raw.item_count > len(rows):
        raise RuntimeError("escape_stream: more items than bytes")
    return Sixel(
        raw.pan,
        raw.pad,
        raw.pixel_width if raw.has_pixel_width else None,
        raw.pixel_height if raw.has_pixel_height else None,
        raw.background_is_transparent,
        raw.grid_size if raw.has_grid_size else None,
        (raw.width, raw.height),
        tuple(map(_item, rows[: raw.item_count])),
    )


def _row(item: SixelItem) -> _library.RawSixelItem:
    hue, lightness, saturation = item.hls
    bits = (32, 32, 16, 16, 8, 8, 8, 8, 8, 8)
    numbers = (
        item.kind,
        item.count,
        item.color,
        hue,
        item.pixels,
        *item.rgb,
        lightness,
        saturation,
    )
    return _library.RawSixelItem(*map(_library.within, numbers, bits))


def _item(row: _library.RawSixelItem) -> SixelItem:
    rgb, hls = (row.red, row.green, row.blue), (row.hue, row.lightness, row.saturation)
    return SixelItem(SixelKind(row.kind), row.pixels, row.count, row.color, rgb, hls)
