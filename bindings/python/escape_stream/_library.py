# SPDX-License-Identifier: MIT
"""The calls of the proved library, as escape_stream.h, escape_stream_screen.h and
escape_stream_parser.h declare them.

The declarations are written by hand. Each text that a caller gives is `bytes`, which nobody writes
during a call, and whose pointer is never null; an object that a call writes is of this package
alone.
"""

import ctypes
import struct
from collections.abc import Callable, Iterator
from contextlib import contextmanager
from ctypes import POINTER, Structure, byref
from ctypes import (
    c_bool,
    c_char_p,
    c_int64,
    c_size_t,
    c_ubyte,
    c_uint16,
    c_uint32,
    c_uint64,
    c_void_p,
)
from mmap import mmap
from pathlib import Path
from threading import Lock

Bytes = bytes | bytearray | memoryview | mmap
"""An object that has the bytes of a stream."""

DONE, NO_MEMORY, UNKNOWN_POLICY, NOT_BEGUN, NO_COMMAND, NOT_WRITABLE = range(6)
UNKNOWN_SIZE, UNKNOWN_GROUP, UNKNOWN_LINKS, UNKNOWN_FRAMING, UNKNOWN_CHARACTERS = range(6, 11)
UNKNOWN_RETURNS, UNKNOWN_ENCODING, UNKNOWN_SHOW = range(11, 14)
TOO_MANY_ROWS, TOO_MANY_COLUMNS = range(14, 16)

NONE, TEXT, CHARACTER, CONTROL, ESCAPE, CSI, OSC = range(7)
DCS, DATA, DATA_BYTE, DCS_END, APC, FAILED, LIMIT = range(7, 14)

VALUE_NUMBER, VALUE_TEXT, VALUE_SIZE = range(3)


class RawFilter(Structure):
    """`struct escape_stream_filter_state`."""

    _fields_ = [("is_begun", c_bool), ("state", c_void_p)]


class RawSanitizer(Structure):
    """`struct escape_stream_sanitizer`."""

    _fields_ = [("is_begun", c_bool), ("state", c_void_p)]


class RawSanitizerOptions(Structure):
    """`struct escape_stream_sanitizer_options`."""

    _fields_ = [
        ("size", c_uint32),
        ("policy", c_uint32),
        ("limit", c_uint64),
        ("allowed", c_uint32),
        ("denied", c_uint32),
        ("links", c_uint32),
        ("framing", c_uint32),
        ("characters", c_uint32),
        ("returns", c_uint32),
        ("encoding", c_uint32),
        ("show", c_uint32),
        ("rows", c_uint32),
        ("columns", c_uint32),
        ("account", c_uint32),
        ("reserved", c_uint32),
    ]


class RawAccount(Structure):
    """`struct escape_stream_account`."""

    _fields_ = [
        ("passed", c_uint64),
        ("respelled", c_uint64),
        ("shown", c_uint64),
        ("replaced", c_uint64),
        ("left_out", c_uint64),
        ("swallowed", c_uint64),
        ("overwritten", c_uint64),
        ("length", c_uint64),
    ]


class RawPage(Structure):
    """`struct escape_stream_html`."""

    _fields_ = [("is_begun", c_bool), ("state", c_void_p)]


class RawNormaliser(Structure):
    """`struct escape_stream_normaliser`."""

    _fields_ = [("is_begun", c_bool), ("state", c_void_p)]


class RawScreen(Structure):
    """`struct escape_stream_screen`."""

    _fields_ = [("is_begun", c_bool), ("state", c_void_p)]


class RawScreenState(Structure):
    """`struct escape_stream_screen_state`."""

    _fields_ = [
        ("scrolled", c_uint64),
        ("kept", c_size_t),
        ("requests", c_size_t),
        ("links", c_size_t),
        ("columns", c_uint16),
        ("rows", c_uint16),
        ("cursor_row", c_uint16),
        ("cursor_column", c_uint16),
        ("pending", c_bool),
        ("shown", c_bool),
        ("alternate", c_bool),
        ("reversed", c_bool),
        ("synchronized", c_bool),
        ("has_title", c_bool),
    ]


class RawCell(Structure):
    """`struct escape_stream_cell`."""

    _fields_ = [
        ("character", c_uint32),
        ("first_mark", c_uint32),
        ("second_mark", c_uint32),
        ("foreground", c_uint32),
        ("background", c_uint32),
        ("underline_color", c_uint32),
        ("link", c_uint32),
        ("width", c_ubyte),
        ("underline", c_ubyte),
        ("bold", c_bool),
        ("faint", c_bool),
        ("italic", c_bool),
        ("blink", c_bool),
        ("inverse", c_bool),
        ("concealed", c_bool),
        ("strikethrough", c_bool),
        ("overline", c_bool),
        ("more_marks", c_bool),
        ("joined", c_bool),
    ]


class RawRequest(Structure):
    """`struct escape_stream_request`."""

    _fields_ = [("kind", c_uint32), ("mode", c_uint32)]


class RawFunction(Structure):
    """`struct escape_stream_function_info`."""

    _fields_ = [
        ("name", ctypes.c_char * 16),
        ("phrase", ctypes.c_char * 80),
        ("changes_screen", c_bool),
        ("is_answered", c_bool),
    ]


class RawField(Structure):
    """`struct escape_stream_field`."""

    _fields_ = [
        ("name", c_uint32),
        ("kind", c_uint32),
        ("number", c_int64),
        ("offset", c_size_t),
        ("length", c_size_t),
    ]


class RawOsc(Structure):
    """`struct escape_stream_osc`."""

    _fields_ = [("kind", c_uint32), ("field_count", c_size_t), ("text_length", c_size_t)]


class RawImage(Structure):
    """`struct escape_stream_image`."""

    _fields_ = [("kind", c_uint32), ("field_count", c_size_t), ("text_length", c_size_t)]


class RawQuery(Structure):
    """`struct escape_stream_query`."""

    _fields_ = [("name_count", c_size_t), ("text_length", c_size_t)]

    # A query has no kind, and its names are its fields.
    kind = 0

    @property
    def field_count(self) -> int:
        """How many names it has."""
        return int(self.name_count)


class RawSixelItem(Structure):
    """`struct escape_stream_sixel_item`."""

    _fields_ = [
        ("kind", c_uint32),
        ("count", c_uint32),
        ("color", c_uint16),
        ("hue", c_uint16),
        ("pixels", c_ubyte),
        ("red", c_ubyte),
        ("green", c_ubyte),
        ("blue", c_ubyte),
        ("lightness", c_ubyte),
        ("saturation", c_ubyte),
    ]


class RawSixel(Structure):
    """`struct escape_stream_sixel`."""

    _fields_ = [
        ("pan", c_int64),
        ("pad", c_int64),
        ("grid_size", c_int64),
        ("pixel_width", c_uint32),
        ("pixel_height", c_uint32),
        ("width", c_uint32),
        ("height", c_uint32),
        ("has_grid_size", c_bool),
        ("has_pixel_width", c_bool),
        ("has_pixel_height", c_bool),
        ("background_is_transparent", c_bool),
        ("item_count", c_size_t),
    ]


_PLACE = str(Path(__file__).parent / "libescape_stream.so")
# The calls that take a whole stream, or a chunk of any length, let other threads run meanwhile.
_long = ctypes.CDLL(_PLACE)
# The others do not, so of one parser no two run at the same time.
_short = ctypes.PyDLL(_PLACE)

_version = _short.escape_stream_version
_version.argtypes = ()
_version.restype = c_char_p
VERSION: str = _version().decode("ascii")
"""The version of the library that is loaded."""

_length = (c_char_p, c_size_t)
_room = (POINTER(c_ubyte), c_size_t)

normal = _long.escape_stream_normal
normal.argtypes = (*_length, *_room, POINTER(c_size_t))
normal.restype = c_uint32

is_normal = _long.escape_stream_is_normal
is_normal.argtypes = (*_length, POINTER(c_bool))
is_normal.restype = c_uint32

filter_whole = _long.escape_stream_filter
filter_whole.argtypes = (c_uint32, c_size_t, *_length, *_room, POINTER(c_size_t))
filter_whole.restype = c_uint32

filter_begin = _short.escape_stream_filter_begin
filter_begin.argtypes = (POINTER(RawFilter), c_uint32, c_size_t)
filter_begin.restype = c_uint32

filter_feed = _long.escape_stream_filter_feed
filter_feed.argtypes = (POINTER(RawFilter), *_length)
filter_feed.restype = c_uint32

filter_finish = _short.escape_stream_filter_finish
filter_finish.argtypes = (POINTER(RawFilter),)
filter_finish.restype = c_uint32

filter_output = _short.escape_stream_filter_output
filter_output.argtypes = (POINTER(RawFilter), c_size_t, *_room)
filter_output.restype = c_size_t

filter_end = _short.escape_stream_filter_end
filter_end.argtypes = (POINTER(RawFilter),)
filter_end.restype = None

sanitizer_begin = _short.escape_stream_sanitizer_begin
sanitizer_begin.argtypes = (POINTER(RawSanitizer), POINTER(RawSanitizerOptions))
sanitizer_begin.restype = c_uint32

sanitizer_feed = _long.escape_stream_sanitizer_feed
sanitizer_feed.argtypes = (POINTER(RawSanitizer), *_length)
sanitizer_feed.restype = c_uint32

sanitizer_finish = _short.escape_stream_sanitizer_finish
sanitizer_finish.argtypes = (POINTER(RawSanitizer),)
sanitizer_finish.restype = c_uint32

sanitizer_output = _short.escape_stream_sanitizer_output
sanitizer_output.argtypes = (POINTER(RawSanitizer), c_size_t, *_room)
sanitizer_output.restype = c_size_t

sanitizer_account = _short.escape_stream_sanitizer_account
sanitizer_account.argtypes = (POINTER(RawSanitizer), POINTER(RawAccount))
sanitizer_account.restype = c_uint32

sanitizer_end = _short.escape_stream_sanitizer_end
sanitizer_end.argtypes = (POINTER(RawSanitizer),)
sanitizer_end.restype = None

html_begin = _short.escape_stream_html_begin
html_begin.argtypes = (POINTER(RawPage), c_bool, c_bool, c_size_t)
html_begin.restype = c_uint32

html_feed = _long.escape_stream_html_feed
html_feed.argtypes = (POINTER(RawPage), *_length)
html_feed.restype = c_uint32

html_finish = _short.escape_stream_html_finish
html_finish.argtypes = (POINTER(RawPage),)
html_finish.restype = c_uint32

html_output = _short.escape_stream_html_output
html_output.argtypes = (POINTER(RawPage), c_size_t, *_room)
html_output.restype = c_size_t

html_end = _short.escape_stream_html_end
html_end.argtypes = (POINTER(RawPage),)
html_end.restype = None

normal_begin = _short.escape_stream_normal_begin
normal_begin.argtypes = (POINTER(RawNormaliser), c_size_t)
normal_begin.restype = c_uint32

normal_feed = _long.escape_stream_normal_feed
normal_feed.argtypes = (POINTER(RawNormaliser), *_length)
normal_feed.restype = c_uint32

normal_finish = _short.escape_stream_normal_finish
normal_finish.argtypes = (POINTER(RawNormaliser),)
normal_finish.restype = c_uint32

normal_output = _short.escape_stream_normal_output
normal_output.argtypes = (POINTER(RawNormaliser), c_size_t, *_room)
normal_output.restype = c_size_t

normal_end = _short.escape_stream_normal_end
normal_end.argtypes = (POINTER(RawNormaliser),)
normal_end.restype = None

_screen = POINTER(RawScreen)
_cells = (POINTER(RawCell), c_size_t, POINTER(c_size_t))

screen_begin = _short.escape_stream_screen_begin
screen_begin.argtypes = (_screen, c_uint16, c_uint16, c_size_t)
screen_begin.restype = c_uint32

screen_feed = _long.escape_stream_screen_feed
screen_feed.argtypes = (_screen, *_length)
screen_feed.restype = c_uint32

screen_resize = _long.escape_stream_screen_resize
screen_resize.argtypes = (_screen, c_uint16, c_uint16)
screen_resize.restype = c_uint32

screen_state = _short.escape_stream_screen_state_of
screen_state.argtypes = (_screen, POINTER(RawScreenState))
screen_state.restype = c_uint32

screen_cells = _short.escape_stream_screen_cells
screen_cells.argtypes = (_screen, c_size_t, *_cells)
screen_cells.restype = c_uint32

screen_scrolled = _short.escape_stream_screen_scrolled
screen_scrolled.argtypes = (_screen, c_size_t, *_cells)
screen_scrolled.restype = c_uint32

screen_title = _short.escape_stream_screen_title
screen_title.argtypes = (_screen, *_room, POINTER(c_size_t))
screen_title.restype = c_uint32

screen_icon_name = _short.escape_stream_screen_icon_name
screen_icon_name.argtypes = (_screen, *_room, POINTER(c_size_t))
screen_icon_name.restype = c_uint32

screen_link = _short.escape_stream_screen_link
screen_link.argtypes = (_screen, c_size_t, *_room, POINTER(c_size_t))
screen_link.restype = c_uint32

screen_link_id = _short.escape_stream_screen_link_id
screen_link_id.argtypes = (_screen, c_size_t, *_room, POINTER(c_size_t))
screen_link_id.restype = c_uint32

screen_requests = _short.escape_stream_screen_requests
screen_requests.argtypes = (_screen, POINTER(RawRequest), c_size_t, POINTER(c_size_t))
screen_requests.restype = c_uint32

screen_changed = _long.escape_stream_screen_changed
screen_changed.argtypes = (_screen, *_room)
screen_changed.restype = c_uint32

screen_end = _short.escape_stream_screen_end
screen_end.argtypes = (_screen,)
screen_end.restype = None

# Many events at one call: the calls and the struct `many` of events.c. It begins with how many
# bytes were taken, how many words of records, bytes of text and bytes of strings follow, whether it
# is done, and whether the last string is in the buffer.
MANY = struct.Struct("6I")
MANY_WORDS, MANY_TEXT, MANY_SIZE = 16_384, 3 * 32_768 + 16, 300_000

many_begin = _short.escape_stream_many_begin
many_begin.argtypes = (c_void_p,)
many_begin.restype = None

many_next = _short.escape_stream_many_next
many_next.argtypes = (c_void_p, c_void_p, c_size_t, c_void_p, c_size_t)
many_next.restype = None

many_is_ground = _short.escape_stream_many_is_ground
many_is_ground.argtypes = (c_void_p,)
many_is_ground.restype = c_bool

control_function = _short.escape_stream_function
control_function.argtypes = (c_ubyte, c_ubyte, c_ubyte, c_size_t, POINTER(RawFunction))
control_function.restype = c_bool

escape_function = _short.escape_stream_escape_function
escape_function.argtypes = (c_ubyte, c_ubyte, POINTER(RawFunction))
escape_function.restype = c_bool

c0_function = _short.escape_stream_control_function
c0_function.argtypes = (c_ubyte, POINTER(RawFunction))
c0_function.restype = c_bool

read_osc = _short.escape_stream_read_osc
read_osc.argtypes = (*_length, POINTER(RawOsc), POINTER(RawField), c_size_t, *_room)
read_osc.restype = c_uint32

read_kitty = _short.escape_stream_read_kitty
read_kitty.argtypes = (*_length, POINTER(RawImage), POINTER(RawField), c_size_t, *_room)
read_kitty.restype = c_uint32

read_tcap = _short.escape_stream_read_tcap
read_tcap.argtypes = (*_length, POINTER(RawQuery), POINTER(RawField), c_size_t, *_room)
read_tcap.restype = c_uint32

read_sixel = _long.escape_stream_read_sixel
read_sixel.argtypes = (
    POINTER(c_int64),
    c_size_t,
    *_length,
    POINTER(RawSixel),
    POINTER(RawSixelItem),
    c_size_t,
)
read_sixel.restype = c_uint32

_fields = (POINTER(RawField), c_size_t, *_length)
_needed = (*_room, POINTER(c_size_t))

write_osc = _short.escape_stream_write_osc
write_osc.argtypes = (c_uint32, *_fields, *_needed)
write_osc.restype = c_uint32

write_kitty = _short.escape_stream_write_kitty
write_kitty.argtypes = (c_uint32, *_fields, *_needed)
write_kitty.restype = c_uint32

write_tcap = _short.escape_stream_write_tcap
write_tcap.argtypes = (*_fields, *_needed)
write_tcap.restype = c_uint32

write_sixel = _long.escape_stream_write_sixel
write_sixel.argtypes = (POINTER(RawSixel), POINTER(RawSixelItem), c_size_t, *_needed)
write_sixel.restype = c_uint32


def done(status: int) -> None:
    """Raises what a status says, if the call was not done."""
    if status == NO_MEMORY:
        raise MemoryError("escape_stream: a request for memory was refused")
    if status == NO_COMMAND:
        raise ValueError("escape_stream: the parts of the value do not go together")
    if status == NOT_WRITABLE:
        raise ValueError("escape_stream: the text of the value would not read back as it")
    if status != DONE:
        raise RuntimeError(f"escape_stream: status {status}")


def written(call: Callable[..., int], *words: object) -> bytes:
    """Returns the text that a call writes, which takes these words first."""
    # First in as much room as most need.
    room, needed = 256, c_size_t()
    while True:
        out = (c_ubyte * room)()
        done(call(*words, out, room, byref(needed)))
        if needed.value <= room:
            return bytes(memoryview(out)[: needed.value])
        room = needed.value


def within(number: int, bits: int) -> int:
    """Returns a number from 0 up, if it has no more bits: one that ctypes keeps as it is."""
    if not 0 <= number < 1 << bits:
        raise ValueError(f"{number} is no number of {bits} bits")
    return number


def signed(number: int) -> int:
    """Returns a number, if it is one of 64 bits with its sign."""
    if not -(1 << 63) <= number < 1 << 63:
        raise ValueError(f"{number} is no number of 64 bits with its sign")
    return number


def bytes_of(stream: Bytes) -> bytes:
    """Returns the bytes of what has bytes: of `bytes` itself no copy."""
    return stream if type(stream) is bytes else bytes(memoryview(stream))


@contextmanager
def used(in_use: Lock, name: str) -> Iterator[None]:
    """Keeps an object for one thread as long as that uses it. The name is for people."""
    if not in_use.acquire(blocking=False):
        raise RuntimeError(f"another thread uses this {name}")
    try:
        yield
    finally:
        in_use.release()


def limit_of(limit: int) -> int:
    """Returns a limit, if the library can take it."""
    if not 0 <= limit < 1 << 62:
        raise ValueError(f"a limit is a number of bytes, and {limit} is none")
    return limit
