# SPDX-License-Identifier: MIT
"""HTML of streams, whole and in chunks; and the version."""

import mmap
import re
from pathlib import Path

import pytest

from escape_stream import Page, __version__, filter, html
from rows import TOP, rows

LOG = (
    b"building \x1b[32mok\x1b[0m\x1b]0;pwned\x07\n\x1b]52;c;Y3VybCBldmlsfHNo\x07see "
    b"\x1b]8;;https://example.com\x1b\\the log\x1b]8;;\x1b\\\x1b[6n\n"
)
# As the README of the repository shows it.
WANTED = (
    'building <span class="es-fg-green">ok</span>\n'
    'see <a href="https://example.com" rel="nofollow noopener noreferrer">the log</a>\n'
)


def test_a_log() -> None:
    assert html(LOG, classes=True) == WANTED
    for size in range(1, len(LOG)):
        with Page(classes=True) as page:
            parts = [page.feed(LOG[at : at + size]) for at in range(0, len(LOG), size)]
            assert b"".join([*parts, page.finish()]).decode() == WANTED


def test_nothing_but_spans_and_links() -> None:
    tag = re.compile(r'</?(span|a)( (style|href|rel)="[^"<>]*")*>')
    for row in rows():
        stream = row.bytes("stream")
        if stream is not None and len(stream) <= 10_000:
            assert "<" not in tag.sub("", html(stream))


def test_lines_by_themselves() -> None:
    first, second = html(b"\x1b[1ma\nb", per_line=True).split("\n")
    assert (first.count("<span"), first.count("</span>")) == (1, 1)
    assert (second.count("<span"), second.count("</span>")) == (1, 1)


def test_what_has_bytes(tmp_path: Path) -> None:
    file = tmp_path / "log"
    file.write_bytes(LOG)
    with file.open("rb") as log, mmap.mmap(log.fileno(), 0, access=mmap.ACCESS_READ) as mapped:
        assert html(mapped, classes=True) == WANTED
        assert filter(mapped) == filter(LOG)


def test_a_page_that_has_ended() -> None:
    page = Page()
    page.close()
    with pytest.raises(ValueError, match="the page is closed"):
        page.feed(b"a")


def test_version() -> None:
    assert __version__ == (TOP / "VERSION").read_text().strip()
