# SPDX-License-Identifier: MIT
"""A terminal's screen, with the names of the package `pyte` where that has them."""

import threading
from collections.abc import Callable, Iterable
from ctypes import byref, c_size_t, c_ubyte
from enum import IntEnum
from types import TracebackType
from typing import NamedTuple

from escape_stream import _library
from escape_stream._library import RawCell, RawRequest, RawScreen, RawScreenState

_PALETTE, _DIRECT = 0x1000000, 0x2000000
# The names that pyte gives the first 16 colours of the palette.
_NAMES = ("black", "red", "green", "brown", "blue", "magenta", "cyan", "white")
_COLORS = {_PALETTE + at: name for at, name in enumerate(_NAMES)}
_COLORS |= {_PALETTE + 8 + at: f"bright{name}" for at, name in enumerate(_NAMES)}
# The six intensities of the cube of colours of xterm's palette.
_LEVELS = (0, 95, 135, 175, 215, 255)


def _color(number: int) -> str:
    if number < _PALETTE:
        return "default"
    if number >= _DIRECT:
        return f"{number - _DIRECT:06x}"
    if name := _COLORS.get(number):
        return name
    entry = number - _PALETTE - 16
    if entry >= 216:
        return f"{8 + 10 * (entry - 216):02x}" * 3
    return "".join(f"{_LEVELS[entry // place % 6]:02x}" for place in (36, 6, 1))


class Underline(IntEnum):
    """How a character is underlined."""

    NONE = 0
    SINGLE = 1
    DOUBLE = 2
    CURLY = 3
    DOTTED = 4
    DASHED = 5


class Char(NamedTuple):
    """A cell of a screen: what stands in it, how it looks, and where it leads."""

    data: str
    """The character and at most two marks; a space where the cell is blank, and nothing in the
    second cell of a character of two columns."""
    fg: str = "default"
    """Its colour: `default`, a name, or six hexadecimal digits of red, green and blue."""
    bg: str = "default"
    """The colour around it."""
    bold: bool = False
    italics: bool = False
    underscore: bool = False
    strikethrough: bool = False
    reverse: bool = False
    blink: bool = False
    faint: bool = False
    concealed: bool = False
    overline: bool = False
    underline: Underline = Underline.NONE
    """How it is underlined; `underscore` says whether it is."""
    underline_color: str = "default"
    link: int = 0
    """The number of the link to which it leads, from 1 on, or 0: `Screen.links` has them."""


class Cursor(NamedTuple):
    """Where the cursor is, from 0 on."""

    x: int
    y: int
    hidden: bool
    pending: bool
    """Whether the next character wraps, since the last column was just written."""


class Link(NamedTuple):
    """A link to which cells lead."""

    address: str
    id: str | None


class RequestKind(IntEnum):
    """The requests of a stream to a terminal, which a real one answers."""

    PRIMARY_ATTRIBUTES = 1
    SECONDARY_ATTRIBUTES = 2
    TERTIARY_ATTRIBUTES = 3
    NAME_AND_VERSION = 4
    STATUS = 5
    CURSOR_POSITION = 6
    MODE_STATE = 7
    PRIVATE_MODE_STATE = 8


class Request(NamedTuple):
    """A request: what is asked for, and the mode whose state is, or 0."""

    kind: RequestKind
    mode: int


def _text(cell: RawCell) -> str:
    if not cell.character:
        return " " if cell.width else ""
    marks = (mark for mark in (cell.first_mark, cell.second_mark) if mark)
    return "".join(map(chr, (cell.character, *marks)))


def _char(cell: RawCell) -> Char:
    return Char(
        _text(cell),
        _color(cell.foreground),
        _color(cell.background),
        bold=cell.bold,
        italics=cell.italic,
        underscore=cell.underline != 0,
        strikethrough=cell.strikethrough,
        reverse=cell.inverse,
        blink=cell.blink,
        faint=cell.faint,
        concealed=cell.concealed,
        overline=cell.overline,
        underline=Underline(cell.underline),
        underline_color=_color(cell.underline_color),
        link=cell.link,
    )


def _checked(*counts: int) -> None:
    for count in counts:
        if not 0 < count < 1 << 16:
            raise ValueError(f"{count} is no number of columns or lines")


class Screen:
    """The screen of a terminal of a size for a stream that comes in chunks.

    >>> from escape_stream import Screen
    >>> with Screen(12, 2) as screen:
    ...     screen.feed(b"50%\\rdo\\x1b[1m")
    ...     screen.feed(b"ne\\r\\n")
    ...     print(screen.display, screen.cursor.y, screen.buffer[0][3].bold)
    ['done        ', '            '] 1 True

    Any thread may use it, and one at a time. Its memory is given back by `close`, by the end of a
    `with`, or when nothing names it any more. LF goes down and does not return to the first
    column: feed a stream that went through no terminal's driver after `ESC [20h`, which is LNM.

    Each call and each attribute raises MemoryError if a request for memory was refused, which
    closes the screen, ValueError if it is closed, and RuntimeError while another thread uses it.
    """

    def __init__(self, columns: int, lines: int, *, scrollback: int = 0) -> None:
        """Begins a blank screen of so many columns and lines. It keeps the last `scrollback` lines
        that are scrolled off the top of the main screen.

        Raises ValueError if there are no columns or no lines, or more than 65,535.
        """
        _checked(columns, lines)
        self._in_use = threading.Lock()
        self._columns, self._lines = columns, lines
        self._raw = RawScreen()
        _library.done(
            _library.screen_begin(
                byref(self._raw), columns, lines, _library.limit_of(scrollback)
            )
        )

    @property
    def columns(self) -> int:
        """How many columns it has."""
        return self._columns

    @property
    def lines(self) -> int:
        """How many lines it has."""
        return self._lines

    def feed(self, chunk: _library.Bytes | str) -> None:
        """Takes the next chunk of the stream. Text is taken as UTF-8."""
        chunk = chunk.encode() if isinstance(chunk, str) else _library.bytes_of(chunk)
        self._do(_library.screen_feed, chunk, len(chunk))

    def resize(self, lines: int | None = None, columns: int | None = None) -> None:
        """Gives it so many lines and columns, or as many as before, as xterm does without saved
        lines: a line is cut or gets blank cells, and lines go and come at the bottom, but as many
        leave at the top as that of the cursor needs to stay. Those of the main screen are scrolled
        off.

        Raises ValueError if there are no columns or no lines, or more than 65,535.
        """
        lines = self._lines if lines is None else lines
        columns = self._columns if columns is None else columns
        _checked(columns, lines)
        self._do(_library.screen_resize, columns, lines)
        self._columns, self._lines = columns, lines

    @property
    def display(self) -> list[str]:
        """The text of each line, with spaces for its blank cells."""
        return ["".join(map(_text, self._cells(_library.screen_cells, at))) for at in self._range]

    @property
    def buffer(self) -> list[list[Char]]:
        """The cells of each line: `buffer[y][x]`. It is read anew each time."""
        return [self._chars(_library.screen_cells, at) for at in self._range]

    def line(self, y: int) -> list[Char]:
        """Returns the cells of a line. Raises IndexError if there is no such line."""
        if not 0 <= y < self._lines:
            raise IndexError(y)
        return self._chars(_library.screen_cells, y)

    @property
    def cursor(self) -> Cursor:
        """Where the cursor is, and whether it is hidden."""
        state = self._state()
        hidden = not state.shown
        return Cursor(state.cursor_column, state.cursor_row, hidden, state.pending)

    @property
    def title(self) -> str:
        """The title of the window; nothing if it has none."""
        return self._text(_library.screen_title)

    @property
    def icon_name(self) -> str:
        """The name of its icon; nothing if it has none."""
        return self._text(_library.screen_icon_name)

    @property
    def alternate(self) -> bool:
        """Whether the alternate screen is seen."""
        return bool(self._state().alternate)

    @property
    def reversed(self) -> bool:
        """Whether each cell is to be drawn inverse (DECSCNM)."""
        return bool(self._state().reversed)

    @property
    def synchronized(self) -> bool:
        """Whether a program is in the middle of an update (mode 2026)."""
        return bool(self._state().synchronized)

    @property
    def links(self) -> list[Link]:
        """The links of cells; the first has the number 1."""
        numbers = range(1, self._state().links + 1)
        link, link_id = _library.screen_link, _library.screen_link_id
        return [Link(self._text(link, at), self._text(link_id, at) or None) for at in numbers]

    @property
    def requests(self) -> list[Request]:
        """The requests of the last chunk to a terminal, in order."""
        count = self._state().requests
        room = (RawRequest * count)()
        self._do(_library.screen_requests, room, count, byref(c_size_t()))
        return [Request(RequestKind(it.kind), it.mode) for it in room]

    @property
    def dirty(self) -> set[int]:
        """The lines with cells that changed since the last look; at first all."""
        changed = (c_ubyte * self._lines)()
        self._do(_library.screen_changed, changed, self._lines)
        return {at for at in self._range if changed[at]}

    @property
    def scrolled(self) -> int:
        """How many lines were scrolled off the top of the main screen in all."""
        return int(self._state().scrolled)

    @property
    def history(self) -> list[list[Char]]:
        """The lines that were scrolled off and are kept, the oldest one first: each has as many
        cells as the screen had columns then."""
        kept = range(self._state().kept)
        return [self._chars(_library.screen_scrolled, at) for at in kept]

    def close(self) -> None:
        """Gives back its memory. It may be closed twice."""
        with _library.used(self._in_use, "screen"):
            _library.screen_end(byref(self._raw))

    def __enter__(self) -> "Screen":
        return self

    def __exit__(
        self,
        kind: type[BaseException] | None,
        error: BaseException | None,
        trace: TracebackType | None,
    ) -> None:
        self.close()

    def __del__(self) -> None:
        # (nothing names it any more, so no thread uses it)
        if hasattr(self, "_raw"):
            _library.screen_end(byref(self._raw))

    @property
    def _range(self) -> range:
        return range(self._lines)

    def _do(self, call: Callable[..., int], *words: object) -> None:
        with _library.used(self._in_use, "screen"):
            status = call(byref(self._raw), *words)
        if status == _library.NOT_BEGUN:
            raise ValueError("the screen is closed")
        _library.done(status)

    def _state(self) -> RawScreenState:
        state = RawScreenState()
        self._do(_library.screen_state, byref(state))
        return state

    def _cells(self, call: Callable[..., int], at: int) -> Iterable[RawCell]:
        # (a line that was scrolled off has the columns of the screen at that time)
        room, needed = self._columns, c_size_t()
        while True:
            cells = (RawCell * room)()
            self._do(call, at, cells, room, byref(needed))
            if needed.value <= room:
                return cells[: needed.value]
            room = needed.value

    def _chars(self, call: Callable[..., int], at: int) -> list[Char]:
        return [_char(cell) for cell in self._cells(call, at)]

    def _text(self, call: Callable[..., int], *words: int) -> str:
        room, needed = 256, c_size_t()
        while True:
            out = (c_ubyte * room)()
            self._do(call, *words, out, room, byref(needed))
            if needed.value <= room:
                return bytes(memoryview(out)[: needed.value]).decode()
            room = needed.value
