# SPDX-License-Identifier: MIT
"""A parser of a stream that comes in chunks."""

import ctypes
import threading
from collections.abc import Iterable, Iterator
from ctypes import c_ubyte
from itertools import groupby
from mmap import mmap

from escape_stream import _library
from escape_stream._events import (
    Apc,
    Control,
    Csi,
    Data,
    Dcs,
    DcsEnd,
    Escape,
    Event,
    Limit,
    Osc,
    Text,
)
from escape_stream._whole import DEFAULT_LIMIT

_CHUNK = 65_536
# How many control sequences are kept, so that one that comes again is not made again.
_MOST_KEPT = 4096
# The mark before each byte, and each long number, among the words of a control sequence.
_BYTE, _LONG = 1 << 31, 1 << 30


class Parser:
    """A parser of a stream that comes in chunks. It takes memory when it is made: two bytes for
    each of its limit, and 0.3 MB. Any thread may use it, and one at a time."""

    def __init__(self, limit: int = DEFAULT_LIMIT) -> None:
        """Begins a stream. `limit` is how many bytes a string may have that is handed out."""
        self._in_use = threading.Lock()
        self._many = (c_ubyte * _library.MANY_SIZE)()
        self._size = 2 * _library.limit_of(limit)
        self._buffer = (c_ubyte * self._size)()
        self._sequences: dict[bytes, Csi] = {}
        _library.many_begin(ctypes.addressof(self._many))

    def feed(self, chunk: _library.Bytes) -> list[Event]:
        """Takes the next chunk of the stream, and returns the events that it adds.

        However a stream is cut, its events are the same, but that a run of text or data may come in
        several: `joined` joins them.

        Raises RuntimeError while another thread uses it.
        """
        chunk = _library.bytes_of(chunk)
        with _library.used(self._in_use, "parser"):
            return self._events_of(chunk)

    def is_ground(self) -> bool:
        """Returns whether no character, sequence or string of the stream so far is unfinished."""
        return bool(_library.many_is_ground(ctypes.addressof(self._many)))

    def _events_of(self, chunk: bytes) -> list[Event]:
        start = ctypes.cast(ctypes.c_char_p(chunk), ctypes.c_void_p).value or 0
        many, buffer = ctypes.addressof(self._many), ctypes.addressof(self._buffer)
        found: list[Event] = []
        at, is_done = 0, False
        while not is_done or at < len(chunk):
            _library.many_next(many, buffer, self._size, start + at, len(chunk) - at)
            taken, words, text, strings, done, is_lent = _library.MANY.unpack_from(self._many)
            self._note(found, chunk[at : at + taken], words, text, strings, bool(is_lent))
            at, is_done = at + taken, bool(done)
        return found

    def _note(
        self, found: list[Event], taken: bytes, words: int, text: int, strings: int, is_lent: bool
    ) -> None:
        """Adds the events of a call that took these bytes."""
        view = memoryview(self._many)
        first = _library.MANY.size
        raw = bytes(view[first : first + 4 * words])
        record = memoryview(raw).cast("I").tolist()
        first += 4 * _library.MANY_WORDS
        characters = str(view[first : first + text], "utf-8")
        first += _library.MANY_TEXT
        kept = bytes(view[first : first + strings])
        of_text = of_strings = i = 0
        while i < words:
            kind = record[i]
            if kind == _library.TEXT:
                end = of_text + record[i + 1]
                found.append(Text(characters[of_text:end]))
                of_text, i = end, i + 2
            elif kind == _library.CSI:
                end = i + 2 + record[i + 1]
                key = raw[4 * i + 8 : 4 * end]
                sequence = self._sequences.get(key)
                if sequence is None:
                    sequence = self._kept(key, record[i + 2 : end])
                found.append(sequence)
                i = end
            elif kind == _library.CONTROL:
                found.append(Control(record[i + 1]))
                i += 2
            elif kind == _library.ESCAPE:
                intermediates, has_more = _marks(record[i + 2])
                found.append(Escape(intermediates, chr(record[i + 1]), has_more))
                i += 3
            elif kind == _library.DATA:
                found.append(Data(taken[record[i + 1] : record[i + 1] + record[i + 2]]))
                i += 3
            elif kind == _library.DATA_BYTE:
                found.append(Data(bytes([record[i + 1]])))
                i += 2
            elif kind == _library.DCS_END:
                found.append(DcsEnd(record[i + 1] or None))
                i += 2
            elif kind == _library.LIMIT:
                found.append(Limit(record[i + 1] or None))
                i += 2
            elif kind == _library.FAILED:
                raise RuntimeError("the parser failed: something else wrote its memory")
            else:
                size = 4 if kind == _library.DCS else 3
                length = record[i + size - 1]
                if is_lent and i + size == words:
                    string = self._lent(length)
                else:
                    string = kept[of_strings : of_strings + length]
                    of_strings += length
                found.append(_of_string(kind, string, record[i + 1 : i + 3]))
                i += size

    def _kept(self, key: bytes, words: list[int]) -> Csi:
        """Returns a control sequence, and keeps it under its words."""
        if len(self._sequences) >= _MOST_KEPT:
            self._sequences.clear()
        sequence = self._sequences[key] = _control_sequence(words)
        return sequence

    def _lent(self, length: int) -> bytes:
        """Returns a text in the upper half of the buffer."""
        half = self._size // 2
        return bytes(memoryview(self._buffer)[half : half + length])


def _marks(marks: int) -> tuple[str, bool]:
    """Returns the intermediates, and whether more came."""
    kept = marks >> 16 & 0xFF
    return bytes([marks & 0xFF, marks >> 8 & 0xFF])[:kept].decode("ascii"), bool(marks >> 24)


def _of_string(kind: int, string: bytes, words: list[int]) -> Event:
    """Returns the event of a string."""
    if kind == _library.OSC:
        return Osc(string, words[0] or None)
    if kind == _library.APC:
        return Apc(string, words[0] or None)
    intermediates, has_more = _marks(words[1])
    return Dcs(string, intermediates, chr(words[0]), has_more)


def _entries(words: list[int]) -> Iterator[tuple[int, bool]]:
    """Yields the entries of a control sequence, and whether each is a byte."""
    rest = iter(words)
    for word in rest:
        if word & _BYTE:
            yield word & 0xFF, True
        elif word & _LONG:
            low = next(rest)
            yield low | next(rest) << 32, False
        else:
            yield word, False


def _control_sequence(words: list[int]) -> Csi:
    """Returns a control sequence by its final byte, whether more came, and its entries."""
    prefix, intermediates, number = "", "", None
    groups: list[tuple[int | None, ...]] = []
    group: list[int | None] = []
    has_parameters = False
    for value, is_byte in _entries(words[2:]):
        if not is_byte:
            number, has_parameters = value, True
        elif value in b";:":
            group.append(number)
            number, has_parameters = None, True
            if value == ord(";"):
                groups.append(tuple(group))
                group = []
        elif value in b"<=>?":
            prefix += chr(value)
        else:
            intermediates += chr(value)
    if has_parameters:
        groups.append((*group, number))
    return Csi(prefix, tuple(groups), intermediates, chr(words[0]), bool(words[1]))


def events(
    stream: _library.Bytes | Iterable[_library.Bytes], limit: int = DEFAULT_LIMIT
) -> Iterator[Event]:
    """Yields the events of a stream: of bytes, or of chunks as they come, such as those of
    `iter(lambda: file.read(65536), b"")`.

    A sequence that is unfinished at its end adds nothing.
    """
    parser = Parser(limit)
    chunks = [stream] if isinstance(stream, bytes | bytearray | memoryview | mmap) else stream
    for chunk in chunks:
        for at in range(0, len(chunk), _CHUNK):
            yield from parser.feed(chunk[at : at + _CHUNK])


def joined(found: Iterable[Event]) -> Iterator[Event]:
    """Yields the events with each run of text, and of data, as one: the same however the stream was
    cut."""
    for kind, run in groupby(found, type):
        if kind is Text:
            yield Text("".join(it.text for it in run if isinstance(it, Text)))
        elif kind is Data:
            yield Data(b"".join(it.data for it in run if isinstance(it, Data)))
        else:
            yield from run
