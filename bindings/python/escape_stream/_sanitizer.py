# SPDX-License-Identifier: MIT
"""A filter of a log that comes in chunks."""

from ctypes import byref, sizeof
from dataclasses import dataclass
from enum import IntEnum, IntFlag

from escape_stream import _library
from escape_stream._in_chunks import InChunks
from escape_stream._whole import DEFAULT_LIMIT, Policy

MOST_ROWS = 4096
"""How many rows may be written again at most."""

MOST_COLUMNS = 16384
"""How many columns these rows have at most."""


class Group(IntFlag):
    """Groups of actions. TEXT passes the first two, COLOR the first five, SCREEN all up
    to PALETTE, and ALL all."""

    CHARACTERS = 0x1
    """Characters but DEL."""
    LAYOUT = 0x2
    """Tab, line feed and carriage return."""
    SGR = 0x4
    """Graphic renditions, but those of HIDDEN."""
    HIDDEN = 0x8
    """Graphic renditions with one that conceals text (SGR 8)."""
    LINKS = 0x10
    """Hyperlinks (OSC 8)."""
    CONTROLS = 0x20
    """Bell, backspace, line tabulation and form feed."""
    CURSOR = 0x40
    """Cursor movement, its shape, its saved state, and tab stops."""
    ERASE = 0x80
    """Erasing, inserting, deleting, copying and filling."""
    SCROLL = 0x100
    """Scrolling, index and next line, and margins."""
    MODES = 0x200
    """Modes of the display."""
    CHARSETS = 0x400
    """Character sets, shifts, and the size of a line's characters."""
    PALETTE = 0x800
    """Colours of the palette."""
    TITLES = 0x1000
    """Titles of the window and of the icon."""
    CLIPBOARD = 0x2000
    """The clipboard, set and cleared."""
    IMAGES = 0x4000
    """Images of kitty and sixel."""
    OTHER = 0x8000
    """Anything else, queries too."""


class Links(IntFlag):
    """Schemes of the addresses of links."""

    HTTP = 1
    HTTPS = 2
    MAILTO = 4


class Framing(IntEnum):
    """The extent of a stream of its own."""

    LINES = 1
    """Each line: a sequence that it leaves unfinished hides nothing of the lines after it. A
    rendition that goes on over a line feed is written again at the start of the next line."""
    WHOLE = 2
    """The whole."""
    LINES_RESET = 3
    """Each line, which begins plain: no rendition goes on over a line feed."""


class Characters(IntEnum):
    """The output for a character that hides or reorders text."""

    KEEP = 1
    """The character itself."""
    JOIN = 2
    """The character itself if it belongs to the one before it, as in emoji, and else its
    number."""
    SHOW = 3
    """Its number, as <U+202E>."""
    DROP = 4
    """Nothing."""


class Returns(IntEnum):
    """The output for a carriage return within a line."""

    KEEP = 1
    """The carriage return itself."""
    SHOW = 2
    """^M."""
    DROP = 3
    """Nothing."""


class Encoding(IntEnum):
    """How bytes are read. One from 80 to 9F that is no part of a character is replaced by U+FFFD,
    and with C1 it is a control."""

    UTF_8 = 0
    UTF_8_C1 = 1
    LATIN_1 = 2
    LATIN_1_C1 = 3
    WINDOWS_1250 = 4
    WINDOWS_1251 = 5
    WINDOWS_1252 = 6
    WINDOWS_1253 = 7
    WINDOWS_1254 = 8
    WINDOWS_1255 = 9
    WINDOWS_1256 = 10
    WINDOWS_1257 = 11
    WINDOWS_1258 = 12
    UTF_16 = 13
    """By its byte order mark; UTF_16LE if it has none."""
    UTF_16LE = 14
    UTF_16BE = 15


class Show(IntEnum):
    """How sequences that do not pass are shown in their place, as ^[]0;title^G."""

    PLAIN = 1
    """As other text."""
    ESCAPED = 2
    """As other text, with its ^ and < shown too, as <5E> and <3C>, so that all can be read
    back."""
    REVERSED = 3
    """In reverse video, if that passes."""


@dataclass(frozen=True)
class Account:
    """The fates of the bytes of a stream: how many had each, in UTF-8 if its encoding is
    another."""

    passed: int
    """They are in the text as they came."""
    respelled: int
    """They are in the text in another spelling."""
    shown: int
    """They are in the text as visible characters."""
    replaced: int
    """U+FFFD is in the text for them."""
    left_out: int
    """They mean something that does not pass."""
    swallowed: int
    """They mean nothing, as those of a string that nobody ended."""
    overwritten: int
    """Other text took their place."""
    length: int
    """How many there are: the sum of these."""


class Sanitizer(InChunks):
    """The filter of a log that comes in chunks: the output of the program `escfilter`, and the
    account of every byte.

    If each line is a stream of its own, as by TEXT and COLOR, a string that nobody ends takes
    away the rest of its line, and no line after it:

    >>> from escape_stream import Policy, Sanitizer
    >>> with Sanitizer(Policy.COLOR) as log:
    ...     [log.feed(chunk) for chunk in (b"one\\x1b]0;a ti", b"tle\\ntwo\\x1b[3", b"1m\\n")]
    ...     (log.finish(), log.account().passed, log.account().swallowed)
    [b'one', b'\\ntwo', b'\\x1b[31m\\x1b[0m\\n']
    (b'', 12, 12)

    `finish` ends the log; `account` is then that of the whole. Any thread may use it, and one at a
    time. Its memory is given back by `close`, by the end of a `with`, or when nothing
    names it any more.
    """

    _name = "sanitizer"
    _feed = _library.sanitizer_feed
    _finish = _library.sanitizer_finish
    _output_from = _library.sanitizer_output
    _end = _library.sanitizer_end

    def __init__(
        self,
        policy: Policy = Policy.COLOR,
        *,
        limit: int = DEFAULT_LIMIT,
        allow: Group = Group(0),
        deny: Group = Group(0),
        links: Links = Links(0),
        framing: Framing | None = None,
        characters: Characters | None = None,
        returns: Returns | None = None,
        encoding: Encoding = Encoding.UTF_8,
        show: Show | None = None,
        rows: int = 0,
        columns: int = 512,
        account: bool = True,
    ) -> None:
        """Begins a log, as the options of `escfilter` say; an option that is None is as the program
        has it by the policy.

        The groups of `allow` pass besides what the policy does, and those of `deny` do not,
        whatever the others say. If `links` names schemes, links to addresses of others do not
        pass. `limit` is how many bytes are kept of an unfinished sequence or string. `rows`, up to
        MOST_ROWS, is the number of rows that may be written again: a progress bar is then written
        as a terminal leaves it, and the account is of the text before that. `columns`, from 1 to
        MOST_COLUMNS, is with `rows` the number of columns of these: a longer line goes on in the
        next row. An `account` costs time and memory.

        Raises MemoryError if a request for memory was refused, and ValueError if an option is
        none.
        """
        super().__init__(_library.RawSanitizer())
        options = _library.RawSanitizerOptions(
            size=sizeof(_library.RawSanitizerOptions),
            policy=Policy(policy),
            limit=_library.limit_of(limit),
            allowed=Group(allow),
            denied=Group(deny),
            links=Links(links),
            framing=Framing(framing) if framing else 0,
            characters=Characters(characters) if characters else 0,
            returns=Returns(returns) if returns else 0,
            encoding=Encoding(encoding),
            show=Show(show) if show else 0,
            rows=_library.within(rows, 32),
            columns=_columns(columns),
            account=bool(account),
        )
        status = _library.sanitizer_begin(byref(self._raw), byref(options))
        if _library.UNKNOWN_SIZE <= status <= _library.TOO_MANY_COLUMNS:
            raise ValueError(
                f"an option of a sanitizer is none: {_FAULTS[status - _library.UNKNOWN_SIZE]}"
            )
        _library.done(status)

    def finish(self) -> bytes:
        """Ends the log. Returns the text that the end adds; the account is then that of the whole
        log.

        Raises MemoryError if a request for memory was refused: it is then closed. Raises
        ValueError if it is closed or has ended, and RuntimeError while another thread uses it.
        """
        return super().finish()

    def account(self) -> Account:
        """Returns the fates of the bytes of the lines that have ended, or of the parts of a
        stream that is one; and of all, once the log has ended. The sums then add up to its length.
        Zeros if no account is kept.

        Raises ValueError if it is closed, and RuntimeError while another thread uses it.
        """
        raw = _library.RawAccount()
        with _library.used(self._in_use, self._name):
            status = _library.sanitizer_account(byref(self._raw), byref(raw))
        if status != _library.DONE:
            raise ValueError("the sanitizer is closed")
        return Account(*(getattr(raw, name) for name, _ in raw._fields_))


def _columns(columns: int) -> int:
    if not 1 <= columns <= MOST_COLUMNS:
        raise ValueError(f"an option of a sanitizer is none: {columns} columns")
    return columns


_FAULTS = (
    "size",
    "group",
    "links",
    "framing",
    "characters",
    "returns",
    "encoding",
    "show",
    f"more than {MOST_ROWS} rows",
    f"more than {MOST_COLUMNS} columns",
)
