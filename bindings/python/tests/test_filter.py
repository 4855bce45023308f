# SPDX-License-Identifier: MIT
"""The filter and the normal form in chunks beside the tables: their end, their threads, and wrong
arguments."""

import asyncio
import gc
import threading

import pytest

from escape_stream import Filter, Normaliser, Parser, Policy, filter, is_normal, normal

HOSTILE = b"a\x1b]0;a title\x07 \x1b[1;31mred\x1b[2J"


def test_policies() -> None:
    assert [filter(HOSTILE, it) for it in Policy] == [
        b"a red",
        b"a \x1b[1;31mred",
        b"a \x1b[1;31mred\x1b[2J",
        b"a\x1b]0;a title\x1b\\ \x1b[1;31mred\x1b[2J",
    ]
    assert filter(HOSTILE) == filter(bytearray(HOSTILE)) == filter(memoryview(HOSTILE)) == b"a red"
    for wrong in (-1, 4):
        with pytest.raises(ValueError):
            filter(b"a", wrong)  # type: ignore[arg-type]
        with pytest.raises(ValueError):
            Filter(wrong)  # type: ignore[arg-type]


def test_a_closed_filter() -> None:
    it = Filter(Policy.TEXT)
    assert it.feed(b"a\x1b[1") == b"a"
    it.close()
    it.close()
    with pytest.raises(ValueError, match="closed"):
        it.feed(b"a")
    with Filter() as other:
        other.feed(b"a")
    with pytest.raises(ValueError, match="closed"):
        other.feed(b"a")


def test_a_closed_normaliser() -> None:
    it = Normaliser(limit=3)
    assert it.feed(b"a\x1b[01") == b"a"
    assert it.finish() == b""
    assert it.feed(b"m\x1b]2;ab\x07\x1b]2;a\x07") == b"m\x1b]2;a\x1b\\"
    it.close()
    it.close()
    for call in (lambda: it.feed(b"a"), it.finish):
        with pytest.raises(ValueError, match="the normaliser is closed"):
            call()
    with pytest.raises(ValueError, match="limit"):
        Normaliser(-1)


def test_a_filter_goes_from_thread_to_thread() -> None:
    async def feed_all() -> list[bytes]:
        it = Filter(Policy.COLOR)
        chunks = (b"a\x1b]0;a ti", b"tle\x07b\x1b[3", b"1m")
        return [await asyncio.to_thread(it.feed, chunk) for chunk in chunks]

    assert asyncio.run(feed_all()) == [b"a", b"b", b"\x1b[31m"]


def test_a_filter_that_another_thread_drops_leaves_nothing() -> None:
    for _ in range(20):
        held = [Filter(limit=1 << 20)]
        held[0].feed(b"\x1b]0;" + b"a" * (1 << 20))
        other = threading.Thread(target=held.clear)
        other.start()
        other.join()
    gc.collect()


def test_two_threads_at_once() -> None:
    it, parser = Filter(), Parser()
    for call, in_use in ((it.feed, it._in_use), (parser.feed, parser._in_use)):
        with in_use, pytest.raises(RuntimeError, match="another thread uses this"):
            call(b"a")
        assert call(b"a")


def test_threads_with_streams_of_their_own() -> None:
    stream, texts = HOSTILE * 1000, []
    threads = [
        threading.Thread(target=lambda: texts.append(filter(stream, Policy.COLOR)))
        for _ in range(8)
    ]
    for it in threads:
        it.start()
    for it in threads:
        it.join()
    assert texts == [b"a \x1b[1;31mred" * 1000] * 8


def test_texts_longer_than_their_streams() -> None:
    assert normal(b"\x85" * 1000) == "\x85".encode() * 1000
    assert filter(b"\xff" * 100_000) == "\ufffd".encode() * 100_000
    with Filter() as it:
        assert it.feed(b"\xff" * 100_000) == "\ufffd".encode() * 100_000


def test_what_is_no_stream() -> None:
    for wrong in (5, "text", None):
        for call in (filter, normal, is_normal, Filter().feed, Normaliser().feed):
            with pytest.raises(TypeError):
                call(wrong)  # type: ignore[operator]
    with pytest.raises(ValueError, match="limit"):
        filter(b"a", Policy.TEXT, -1)
