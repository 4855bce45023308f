# SPDX-License-Identifier: MIT
"""Control functions by name."""

from ctypes import byref
from dataclasses import dataclass

from escape_stream import _library
from escape_stream._events import Control, Csi, Escape
from escape_stream._value_rows import FIRST, LAST, ROWS


@dataclass(frozen=True, slots=True)
class Function:
    """The function of a sequence: a row of docs/FUNCTIONS.md."""

    name: str
    """Its name, as the standards abbreviate it, such as `CUP`."""
    phrase: str
    """Its effect in words, such as `cursor position`."""
    changes_screen: bool
    """Whether it changes the screen alone, with whatever parameters."""
    is_answered: bool
    """Whether a terminal answers it, with some of its parameters or with all."""


def function(event: Csi | Escape | Control) -> Function | None:
    """Returns the function of a control sequence, an escape sequence or a control, if it has a
    name; of an escape sequence of two intermediates `None`.

    >>> from escape_stream import Csi, function
    >>> function(Csi("", ((2,), (5,)), "", "H")).phrase
    'cursor position'
    """
    row = _library.RawFunction()
    if isinstance(event, Csi):
        marks = (event.prefix, event.intermediates)
        if event.has_more or max(map(len, marks)) > 1:
            return None
        numbers = [it for group in event.parameters for it in group]
        # Parameters, and the separators between them.
        count = sum(it is not None for it in numbers) + max(len(numbers) - 1, 0)
        found = _library.control_function(*map(_byte, marks), ord(event.final), count, byref(row))
    elif isinstance(event, Escape):
        if event.has_more or len(event.intermediates) > 1:
            return None
        found = _library.escape_function(_byte(event.intermediates), ord(event.final), byref(row))
    elif event.byte < 0x80:
        found = _library.c0_function(event.byte, byref(row))
    else:
        # ECMA-48, 5.3: a C1 control has the function of ESC and the byte 40 (hexadecimal) less.
        found = event.byte < 0xA0 and _library.escape_function(0, event.byte - 0x40, byref(row))
    if not found:
        return None
    return Function(row.name.decode(), row.phrase.decode(), row.changes_screen, row.is_answered)


def value(event: Csi, index: int) -> int | None:
    """Returns the parameter of this index, counted from 0, or its default where it is left out, by
    the function of the sequence: None if nothing stands for it, or the last line or column of the
    screen. A count, a line, a column and a page are counted from 1: terminals take a 0 for one that
    is left out, and so does this.

    >>> from escape_stream import Csi, value
    >>> value(Csi("", ((2,), (None,)), "", "H"), 0), value(Csi("", ((2,), (None,)), "", "H"), 1)
    (2, 1)
    """
    it = function(event)
    values, repeats = ROWS.get(it.name if it else "", ((None,), True))
    default = values[min(index, len(values) - 1)] if repeats or index < len(values) else None
    number = event.number(index, -1)
    if number > 0 or number == 0 and default not in (FIRST, LAST):
        return number
    return {FIRST: 1, LAST: None}.get(default, default) if default is not None else None


def _byte(mark: str) -> int:
    return ord(mark) if mark else 0
