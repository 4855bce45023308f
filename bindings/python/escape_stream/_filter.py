# SPDX-License-Identifier: MIT
"""A filter of a stream that comes in chunks."""

from ctypes import byref

from escape_stream import _library
from escape_stream._in_chunks import InChunks
from escape_stream._whole import DEFAULT_LIMIT, Policy


class Filter(InChunks):
    """A filter of a stream that comes in chunks: the text of `filter` for the whole, as it comes.

    >>> from escape_stream import Filter, Policy
    >>> with Filter(Policy.COLOR) as filter:
    ...     [filter.feed(chunk) for chunk in (b"a\\x1b]0;a ti", b"tle\\x07b\\x1b[3", b"1m")]
    [b'a', b'b', b'\\x1b[31m']

    `finish` ends a stream with the text that takes back its changes at a terminal, as renditions
    and a link:

    >>> with Filter(Policy.COLOR) as filter:
    ...     [filter.feed(b"\\x1b[31mred"), filter.finish()]
    [b'\\x1b[31mred', b'\\x1b[0m']

    Any thread may use it, and one at a time. Its memory is given back by `close`, by the end of a
    `with`, or when nothing names it any more.
    """

    _name = "filter"
    _feed = _library.filter_feed
    _finish = _library.filter_finish
    _output_from = _library.filter_output
    _end = _library.filter_end

    def __init__(self, policy: Policy = Policy.TEXT, limit: int = DEFAULT_LIMIT) -> None:
        """Begins a stream. `limit` is the number of bytes that are kept of a string; nothing is
        written of a longer one.

        Raises MemoryError if a request for memory was refused, and ValueError if there is no
        such policy.
        """
        super().__init__(_library.RawFilter())
        _library.done(
            _library.filter_begin(byref(self._raw), Policy(policy), _library.limit_of(limit))
        )
