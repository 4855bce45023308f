# SPDX-License-Identifier: MIT
"""Control strings by name."""

from dataclasses import dataclass

from escape_stream._events import Apc, Dcs, Osc
from escape_stream._string_rows import ROWS


@dataclass(frozen=True, slots=True)
class ControlString:
    """A control string that has a name: a row of the tables of strings in docs/FUNCTIONS.md."""

    name: str
    """Its name, which no other has, such as `OSC 52`, `OSC 133;A` or `DECRQSS`."""
    phrase: str
    """Its effect in words, such as `clipboard`."""
    number: int | None
    """The number of an operating system command, such as 52; of any other string None."""


def control_string(event: Osc | Dcs | Apc, data: bytes = b"") -> ControlString | None:
    """Returns the row of an operating system command, a device control string or an application
    program command, if it has a name. The data of a device control string come in later events; a
    few are told apart by their first 9 bytes, `data`, and have no name without these.

    >>> from escape_stream import Osc, control_string
    >>> control_string(Osc(b"133;A")).phrase
    'prompt starts, on a fresh line'
    """
    if isinstance(event, Osc):
        first, _, rest = event.text.partition(b";")
        if first.isdigit():
            return _found("Osc", int(first), None, rest) if len(first) < 100 else None
        return _found("Letter", event.text[0], None, event.text[1:]) if event.text else None
    if isinstance(event, Apc):
        return _found("Apc", event.text[0], None, event.text[1:]) if event.text else None
    if event.has_more:
        return None
    key = 1
    for mark in event.intermediates + event.final:
        key = key * 256 + ord(mark)
    numbers = event.numbers
    return _found("Dcs", key, numbers[0] if len(numbers) == 1 else None, data)


def control_string_named(name: str) -> ControlString | None:
    """Returns the row of this name, if there is one.

    >>> from escape_stream import control_string_named
    >>> control_string_named("OSC 52").phrase
    'clipboard'
    """
    return _NAMED.get(name)


def _found(kind: str, key: int, only: int | None, text: bytes) -> ControlString | None:
    """Returns the first row that a string of this kind and this key has, with this one parameter
    and this text after its key."""
    for begin, start, string in _ROWS.get((kind, key), ()):
        if _fits(begin, start, only, text):
            return string
    return None


def _fits(begin: str, start: bytes | int | None, only: int | None, text: bytes) -> bool:
    if not isinstance(start, bytes):
        return start is None or start == only
    if begin == "Key":
        return start in text.partition(b";")[0].split(b",")
    if not text.startswith(start):
        return False
    return begin == "Bytes" or text[len(start) : len(start) + 1] in (b"", b";", b"=")


_Begin = tuple[str, bytes | int | None, ControlString]
_ROWS: dict[tuple[str, int], list[_Begin]] = {}
_NAMED: dict[str, ControlString] = {}
for _kind, _key, _begin, _start, _name, _words in ROWS:
    _string = ControlString(_name, _words, _key if _kind == "Osc" else None)
    _NAMED[_name] = _string
    _ROWS.setdefault((_kind, _key), []).append((_begin, _start, _string))

CONTROL_STRINGS: tuple[ControlString, ...] = tuple(_NAMED.values())
"""Each string that has a name, in the order of docs/FUNCTIONS.md."""
