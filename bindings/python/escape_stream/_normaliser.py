# SPDX-License-Identifier: MIT
"""The normal form of a stream that comes in chunks."""

from ctypes import byref

from escape_stream import _library
from escape_stream._in_chunks import InChunks
from escape_stream._whole import DEFAULT_LIMIT


class Normaliser(InChunks):
    """The normal form of a stream that comes in chunks: the text of `normal` for the whole, as it
    comes.

    >>> from escape_stream import Normaliser
    >>> with Normaliser() as normaliser:
    ...     [normaliser.feed(chunk) for chunk in (b"a\\x1b]0;a ti", b"tle\\x07b\\x1b[03", b"1m")]
    [b'a', b'\\x1b]0;a title\\x1b\\\\b', b'\\x1b[31m']

    `finish` ends a stream, and adds nothing. Any thread may use it, and one at a time. Its
    memory is given back by `close`, by the end of a `with`, or when nothing names it any more.
    """

    _name = "normaliser"
    _feed = _library.normal_feed
    _finish = _library.normal_finish
    _output_from = _library.normal_output
    _end = _library.normal_end

    def __init__(self, limit: int = DEFAULT_LIMIT) -> None:
        """Begins a stream. `limit` is how many bytes are kept of a string; of one with more nothing
        is written.

        Raises MemoryError if a request for memory was refused.
        """
        super().__init__(_library.RawNormaliser())
        _library.done(_library.normal_begin(byref(self._raw), _library.limit_of(limit)))
