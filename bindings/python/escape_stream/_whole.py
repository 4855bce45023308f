# SPDX-License-Identifier: MIT
"""The calls that take a stream whole."""

from collections.abc import Callable
from ctypes import byref, c_bool, c_size_t, c_ubyte
from enum import IntEnum
from typing import Any

from escape_stream import _library

DEFAULT_LIMIT = 1_048_576
"""How many bytes are kept of a string, if no limit is given."""


class Policy(IntEnum):
    """Which actions pass a filter. Each policy admits all that the one before it does."""

    TEXT = 0
    """Characters but DEL; tab, line feed and carriage return."""
    COLOR = 1
    """And graphic renditions (SGR: colours, bold, underline ..) and hyperlinks (OSC 8)."""
    SCREEN = 2
    """And a list of functions that are known to change the screen alone."""
    ALL = 3
    """All that can be written by itself, so images, titles and queries too. It protects from broken
    input alone."""


def filter(
    stream: _library.Bytes, policy: Policy = Policy.TEXT, limit: int = DEFAULT_LIMIT
) -> bytes:
    """Returns the actions of a stream that the policy admits, and nothing else.

    The text reads back as the actions that were admitted, whatever bytes follow it: no text of the
    stream becomes a sequence, however broken the stream is. `limit` is the number of bytes that are
    kept of a string, such as a title or an image; nothing is written of a longer one.

    Raises MemoryError if a request for memory was refused, and ValueError if there is no such
    policy.
    """
    number, limit, stream = Policy(policy), _library.limit_of(limit), _library.bytes_of(stream)
    return _whole(
        len(stream), lambda *out: _library.filter_whole(number, limit, stream, len(stream), *out)
    )


def normal(stream: _library.Bytes) -> bytes:
    """Returns the normal form of a stream: each of its actions, in order, in its one spelling.

    Normal form is no protection: for a stream of unknown origin there is `filter`.

    Raises MemoryError if a request for memory was refused.
    """
    stream = _library.bytes_of(stream)
    return _whole(len(stream), lambda *out: _library.normal(stream, len(stream), *out))


def is_normal(stream: _library.Bytes) -> bool:
    """Says whether a stream is its own normal form.

    Raises MemoryError if a request for memory was refused.
    """
    stream, answer = _library.bytes_of(stream), c_bool()
    _library.done(_library.is_normal(stream, len(stream), byref(answer)))
    return answer.value


def _whole(about: int, call: Callable[[Any, int, Any], int]) -> bytes:
    """Returns all that a call writes, if it needs about this many bytes, or once more if it
    needs more."""
    needed = c_size_t(about)
    while True:
        capacity = needed.value
        out = (c_ubyte * capacity)()
        _library.done(call(out, capacity, byref(needed)))
        if needed.value <= capacity:
            return bytes(memoryview(out)[: needed.value])
