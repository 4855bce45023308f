# SPDX-License-Identifier: MIT
"""The sanitizer: the lines that stay, the sums, the plain text, each option, its threads, and wrong
arguments."""

import os
import random
import subprocess
import threading
from collections.abc import Iterable
from pathlib import Path
from typing import Any

import pytest

from escape_stream import (
    MOST_COLUMNS,
    MOST_ROWS,
    Account,
    Characters,
    Encoding,
    Framing,
    Group,
    Links,
    Policy,
    Returns,
    Sanitizer,
    Show,
)

HOSTILE = b"a\x1b]0;t\x07 \x1b[1;31mred\x1b[2J\r\nb\rc\xe2\x80\xaed\xff\n\x1b]0;cut\nlast\x1b[7m"


def sanitized(stream: bytes, *words: Any, size: int = 7, **options: Any) -> tuple[bytes, Account]:
    with Sanitizer(*words, **options) as log:
        text = b"".join(log.feed(stream[at : at + size]) for at in range(0, len(stream), size))
        text += log.finish()
        return text, log.account()


def text_of(stream: bytes, *words: Any, **options: Any) -> bytes:
    return sanitized(stream, *words, **options)[0]


def sums(it: Account) -> int:
    return (
        it.passed
        + it.respelled
        + it.shown
        + it.replaced
        + it.left_out
        + it.swallowed
        + it.overwritten
    )


def test_a_string_that_nobody_ends_takes_one_line() -> None:
    log = b"one\n\x1b]two\nthree\nfour\n"
    for policy in (Policy.TEXT, Policy.COLOR):
        assert text_of(log, policy) == b"one\n\nthree\nfour\n"
        assert text_of(log, policy, framing=Framing.WHOLE) == b"one\n"


def test_chunks_and_sums() -> None:
    ways: list[dict[str, Any]] = [
        {},
        {"framing": Framing.WHOLE},
        {"framing": Framing.LINES_RESET},
        {"show": Show.ESCAPED},
        {"rows": 8},
        {"rows": 2, "columns": 5},
    ]
    for policy in Policy:
        for options in ways:
            whole = sanitized(HOSTILE, policy, size=len(HOSTILE), **options)
            assert all(
                sanitized(HOSTILE, policy, size=size, **options) == whole for size in range(1, 20)
            )
            assert whole[1].length == len(HOSTILE) == sums(whole[1])
    assert sanitized(HOSTILE, account=False)[1] == Account(*[0] * 8)


def is_plain(text: str) -> bool:
    return all(it in "\t\n\r" or " " <= it <= "~" or it >= "\u00a0" for it in text)


def test_text_is_plain() -> None:
    source = random.Random(1)
    controls = [b"\x1b", b"]", b"[", b"P", b"_", b"\\", b"0;", b"\x07", b"\x18", b"\x9b"]
    parts = [*controls, b"\xc2", b"\xc3\xa9", b"\xff", b"\n", b"\r", b"ab"]
    streams: Iterable[bytes] = [
        HOSTILE,
        *(b"".join(source.choices(parts, k=200)) for _ in range(200)),
    ]
    for stream in streams:
        for framing in (None, *Framing):
            assert is_plain(text_of(stream, Policy.TEXT, framing=framing).decode())


def test_options() -> None:
    assert text_of(b"\x1b[1mb\nc\x1b[0m\nd") == b"\x1b[1mb\x1b[0m\n\x1b[1mc\x1b[0m\nd"
    reset = text_of(b"\x1b[1mb\nc", framing=Framing.LINES_RESET)
    assert reset == b"\x1b[1mb\x1b[0m\nc"
    assert text_of(b"\x1b[1mb", deny=Group.SGR | Group.HIDDEN) == b"b"
    assert text_of(b"\x1b]2;t\x1b\\x", allow=Group.TITLES) == b"\x1b]2;t\x1b\\x"
    link = b"\x1b]8;;http://a\x1b\\x\x1b]8;;\x1b\\"
    assert text_of(link, links=Links.HTTP | Links.HTTPS) == link
    assert text_of(link, links=Links.MAILTO) == b"x\x1b]8;;\x1b\\"
    hidden = "a\u202eb".encode()
    assert text_of(hidden) == b"a<U+202E>b"
    assert text_of(hidden, characters=Characters.KEEP) == hidden
    assert text_of(hidden, characters=Characters.DROP) == b"ab"
    assert text_of(b"a\rb\r\n") == b"a^Mb\r\n"
    assert text_of(b"a\rb\r\n", returns=Returns.KEEP) == b"a\rb\r\n"
    assert text_of(b"a\x9b1mb", Policy.TEXT, encoding=Encoding.UTF_8_C1) == b"ab"
    assert text_of(b"\x80", encoding=Encoding.WINDOWS_1252) == "€".encode()
    for encoding, name in (
        *((Encoding.UTF_16, "utf-16"), (Encoding.UTF_16, "utf-16-le")),
        *((Encoding.UTF_16LE, "utf-16-le"), (Encoding.UTF_16BE, "utf-16-be")),
    ):
        units = "é€🚀\x1b]0;t\x07\n".encode(name) + b"x"
        assert text_of(units, Policy.TEXT, encoding=encoding) == "é€🚀\n\ufffd".encode()
    assert text_of(b"a\x1b]0;t\x07", show=Show.PLAIN) == b"a^[]0;t^G"
    assert text_of(b"10%\r20%\n", rows=8) == b"20%\n"
    assert text_of(b"abcdef\x1b[Gx\n", rows=8) == b"xbcdef\n"
    assert text_of(b"abcdef\x1b[Gx\n", rows=8, columns=4) == b"abcdxf\n"
    assert text_of(b"a\x1b]0;long\x07b\n", limit=4) == b"ab\n"


@pytest.mark.skipif("ESCFILTER" not in os.environ, reason="ESCFILTER names no program")
def test_the_program(tmp_path: Path) -> None:
    words: list[tuple[dict[str, Any], list[str]]] = [
        ({}, []),
        ({"policy": Policy.TEXT}, ["--allow=text"]),
        ({"policy": Policy.SCREEN}, ["--allow=screen"]),
        ({"policy": Policy.ALL, "framing": Framing.LINES}, ["--allow=all", "--lines"]),
        ({"framing": Framing.LINES_RESET}, ["--line-reset"]),
        ({"framing": Framing.WHOLE, "returns": Returns.SHOW}, ["--whole", "--returns=show"]),
        (
            {"allow": Group.TITLES | Group.CURSOR, "deny": Group.SGR},
            ["--allow=titles,cursor", "--deny=sgr"],
        ),
        ({"links": Links.HTTPS | Links.MAILTO}, ["--links=https,mailto"]),
        (
            {"characters": Characters.SHOW, "returns": Returns.DROP},
            ["--unicode=show", "--returns=drop"],
        ),
        ({"encoding": Encoding.LATIN_1_C1}, ["--encoding=latin1", "--c1=obey"]),
        ({"encoding": Encoding.UTF_16}, ["--encoding=utf-16"]),
        (
            {"encoding": Encoding.UTF_16BE, "show": Show.PLAIN},
            ["--encoding=utf-16be", "--show"],
        ),
        ({"show": Show.REVERSED}, ["--show=color"]),
        ({"show": Show.PLAIN, "encoding": Encoding.LATIN_1}, ["--show", "--encoding=latin1"]),
        ({"rows": 16}, ["--collapse=16"]),
        ({"rows": 16, "columns": 4}, ["--collapse=16", "--columns=4"]),
        (
            {"policy": Policy.TEXT, "rows": 16, "show": Show.ESCAPED},
            ["--allow=text", "--collapse=16", "--show=escaped"],
        ),
        ({"limit": 2}, ["--limit=2"]),
    ]
    stream = HOSTILE + b"\n\x1b]8;;https://a\x07x\x1b]8;;\x07\xe9\x9b1m\x1b[A\x1b[Ky\n" + HOSTILE
    for options, flags in words:
        said = subprocess.run(
            [os.environ["ESCFILTER"], *flags],
            input=stream,
            capture_output=True,
            cwd=tmp_path,
            check=True,
        )
        assert text_of(stream, **options) == said.stdout, flags


def test_misuse() -> None:
    log = Sanitizer()
    log.finish()
    assert log.account() == Account(*[0] * 8)
    for call in (lambda: log.feed(b"a"), log.finish, log.account):
        with pytest.raises(ValueError, match="the sanitizer is closed"):
            call()
    log.close()
    options: list[dict[str, Any]] = [
        {"rows": MOST_ROWS + 1},
        {"rows": -1},
        {"columns": MOST_COLUMNS + 1},
        {"columns": 0},
        {"allow": 0x10000},
        {"links": 8},
    ]
    for wrong in [*options, {"framing": 4}, {"encoding": 16}, {"limit": -1}]:
        with pytest.raises(ValueError):
            Sanitizer(**wrong)
    for no_policy in (-1, 4):
        with pytest.raises(ValueError):
            Sanitizer(no_policy)  # type: ignore[arg-type]
    for no_stream in (5, "text", None):
        with pytest.raises(TypeError):
            Sanitizer().feed(no_stream)  # type: ignore[arg-type]


def test_a_sanitizer_goes_from_thread_to_thread() -> None:
    it, texts = Sanitizer(), []
    for call in (lambda: it.feed(b"a\n"), it.finish):
        other = threading.Thread(target=lambda: texts.append(call()))
        other.start()
        other.join()
    assert texts == [b"a\n", b""]
    with it._in_use, pytest.raises(RuntimeError, match="another thread uses this sanitizer"):
        it.account()
    it.close()
