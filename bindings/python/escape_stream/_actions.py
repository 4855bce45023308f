# SPDX-License-Identifier: MIT
"""A stream as its requests: its events, with the value of each string in place of its text."""

from collections.abc import Iterable, Iterator
from dataclasses import dataclass
from typing import TypeAlias

from escape_stream import _library
from escape_stream._commands import Command, command
from escape_stream._devices import Sixel, TermcapQuery, sixel, termcap_query
from escape_stream._events import (
    Apc,
    Control,
    Csi,
    Data,
    Dcs,
    DcsEnd,
    Escape,
    Limit,
    Osc,
    Text,
)
from escape_stream._images import Image, image
from escape_stream._parser import events
from escape_stream._whole import DEFAULT_LIMIT

# The greatest number of bytes of an image's data, if nothing else is said.
DEFAULT_DATA_LIMIT = 1 << 26


@dataclass(frozen=True, slots=True)
class DeviceControl:
    """A device control string that is given whole, since it is short: a request for a setting
    (DECRQSS)."""

    header: Dcs
    data: bytes


Action: TypeAlias = (
    Text
    | Control
    | Escape
    | Csi
    | Command
    | Image
    | Sixel
    | TermcapQuery
    | DeviceControl
    | Dcs
    | Data
    | DcsEnd
    | Limit
)


def actions(
    stream: _library.Bytes | Iterable[_library.Bytes],
    limit: int = DEFAULT_LIMIT,
    data_limit: int = DEFAULT_DATA_LIMIT,
) -> Iterator[Action]:
    """Yields the events of a stream, with the value of each string: a `Command`, an `Image`, a
    `Sixel`, a `TermcapQuery`.

    >>> from escape_stream import actions
    >>> [type(it).__name__ for it in actions(b"a\\x1b]2;b\\x07\\x1bPq~\\x1b\\\\")]
    ['Text', 'Command', 'Sixel', 'Escape']

    A device control string of another kind comes as its events. An application program command that
    is no image gives nothing, and one with more data than the limit gives `Limit`.
    """
    header, data = None, bytearray()
    for event in events(stream, limit):
        if isinstance(event, Osc):
            yield command(event.text)
        elif isinstance(event, Apc):
            if (found := image(event.text)) is not None:
                yield found
        elif isinstance(event, Dcs) and _is_whole(event):
            header, data = event, bytearray()
        elif header is None:
            yield event
        elif isinstance(event, Data):
            # One byte over the limit is enough to know of it.
            data += event.data[: data_limit + 1 - len(data)]
        elif isinstance(event, DcsEnd):
            yield _device(header, bytes(data)) if len(data) <= data_limit else Limit()
            header = None
        else:
            header = None
            yield event


def _is_whole(header: Dcs) -> bool:
    return header.final == "q" and header.intermediates in ("", "+", "$") and not header.has_more


def _device(header: Dcs, data: bytes) -> Sixel | TermcapQuery | DeviceControl:
    if header.intermediates == "+":
        return termcap_query(data)
    if header.intermediates == "$":
        return DeviceControl(header, data)
    return sixel([it or 0 for it in header.numbers], data)
