# SPDX-License-Identifier: MIT
"""An object that takes a stream in chunks and returns the text that each adds."""

import threading
from ctypes import Structure, byref, c_ubyte
from types import TracebackType
from typing import Any, ClassVar, TypeVar

from escape_stream import _library

_ROOM = 65_536
_Self = TypeVar("_Self", bound="InChunks")


class InChunks:
    """A filter, a sanitizer or a normaliser. Any thread may use it, and one at a time."""

    # Its name, and the calls of the library: these take its struct first.
    _name: ClassVar[str]
    _feed: ClassVar[Any]
    _finish: ClassVar[Any]
    _output_from: ClassVar[Any]
    _end: ClassVar[Any]

    def __init__(self, raw: Structure) -> None:
        self._in_use = threading.Lock()
        self._raw = raw
        self._room = (c_ubyte * _ROOM)()

    def feed(self, chunk: _library.Bytes) -> bytes:
        """Takes the next chunk of the stream, and returns the text that it adds.

        Raises MemoryError if a request for memory was refused: it is then closed, and the texts
        before are the beginning of what the stream would have given. Raises ValueError if it is
        closed, and RuntimeError while another thread uses it.
        """
        chunk = _library.bytes_of(chunk)
        with _library.used(self._in_use, self._name):
            return self._output_after(self._feed(byref(self._raw), chunk, len(chunk)))

    def finish(self) -> bytes:
        """Ends the stream, and begins the next. Returns the text that the end adds. An unfinished
        sequence adds nothing.

        Raises MemoryError if a request for memory was refused: it is then closed. Raises
        ValueError if it is closed, and RuntimeError while another thread uses it.
        """
        with _library.used(self._in_use, self._name):
            return self._output_after(self._finish(byref(self._raw)))

    def close(self) -> None:
        """Gives back its memory. A sequence that is unfinished at the end of a stream adds nothing.
        It may be closed twice.

        Raises RuntimeError while another thread uses it.
        """
        with _library.used(self._in_use, self._name):
            self._end(byref(self._raw))

    def __enter__(self: _Self) -> _Self:
        return self

    def __exit__(
        self,
        kind: type[BaseException] | None,
        error: BaseException | None,
        trace: TracebackType | None,
    ) -> None:
        self.close()

    def __del__(self) -> None:
        # (nothing names it any more, so no thread uses it)
        if hasattr(self, "_room"):
            self._end(byref(self._raw))

    def _output_after(self, status: int) -> bytes:
        if status == _library.NOT_BEGUN:
            raise ValueError(f"the {self._name} is closed")
        _library.done(status)
        text = bytearray()
        while count := self._output_from(byref(self._raw), len(text), self._room, _ROOM):
            text += memoryview(self._room)[:count]
        return bytes(text)
