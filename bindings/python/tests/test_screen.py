# SPDX-License-Identifier: MIT
"""The screen: cells, the cursor, titles, links, requests, lines that are scrolled off."""

import pytest

from escape_stream import Char, Link, RequestKind, Screen, Underline

STREAM = (
    "\x1b]0;t\x07café 日\x1b[1;32mok\x1b[m\r\n\x1b[2;3r\n\n\x1b[?25l\x1b[?1049h日本\x1b[6n".encode()
)


def fed(stream: bytes | str, columns: int = 10, lines: int = 3, scrollback: int = 2) -> Screen:
    screen = Screen(columns, lines, scrollback=scrollback)
    screen.feed(stream)
    return screen


def test_text() -> None:
    screen = fed(b"50%\rdone\r\n\x1b[3;2Hlast\x1b[3;3H\x1b[X")
    assert (screen.columns, screen.lines) == (10, 3)
    assert screen.display == ["done      ", "          ", " l st     "]
    assert (screen.cursor.y, screen.cursor.x, screen.cursor.hidden) == (2, 2, False)
    assert screen.line(0)[0] == Char("d")
    with pytest.raises(IndexError):
        screen.line(3)


def test_looks() -> None:
    screen = fed("\x1b[1;3;4;7;9;31;48;5;196ma\x1b[0;2;38;2;1;2;3;4:3;58;5;7mb\x1b[m\x1b[33;100mc")
    a, b, c = screen.buffer[0][:3]
    assert a.bold and a.italics and a.underscore and a.reverse and a.strikethrough
    assert (a.fg, a.bg, a.faint) == ("red", "ff0000", False)
    assert (b.fg, b.bg, b.faint) == ("010203", "default", True)
    assert (b.underline, b.underline_color) == (Underline.CURLY, "white")
    assert (c.fg, c.bg) == ("brown", "brightblack")


def test_colours_of_the_palette() -> None:
    # xterm's 256colres.h: a cube of six intensities a side, and 24 greys
    screen = fed("".join(f"\x1b[38;5;{at}ma" for at in (16, 21, 67, 231, 232, 255)))
    wanted = ["000000", "0000ff", "5f87af", "ffffff", "080808", "eeeeee"]
    assert [cell.fg for cell in screen.line(0)[:6]] == wanted


def test_widths() -> None:
    screen = fed("a日e\u0301.")
    assert [cell.data for cell in screen.line(0)[:5]] == ["a", "日", "", "e\u0301", "."]
    assert screen.display[0] == "a日e\u0301.     "


def test_strings() -> None:
    with fed(
        "\x1b]2;a title\x07\x1b]8;id=n;http://a/\x07x\x1b]8;;http://b/\x07y\x1b]8;;\x07z"
    ) as screen:
        assert (screen.title, screen.icon_name) == ("a title", "")
        assert screen.links == [Link("http://a/", "n"), Link("http://b/", None)]
        assert [cell.link for cell in screen.line(0)[:3]] == [1, 2, 0]
        screen.feed(f"\x1b]0;{'long' * 100}\x07")
        assert screen.title == screen.icon_name == "long" * 100
        screen.feed("\x1b]1;icon\x07\x1b]2;window\x07")
        assert (screen.title, screen.icon_name) == ("window", "icon")


def test_requests() -> None:
    screen = fed("\x1b[c\x1b[?2026$p")
    wanted = [(RequestKind.PRIMARY_ATTRIBUTES, 0), (RequestKind.PRIVATE_MODE_STATE, 2026)]
    assert screen.requests == wanted
    screen.feed("")
    assert screen.requests == []


def test_lines_that_are_scrolled_off() -> None:
    screen = fed("a\r\nb\r\nc\r\nd\r\ne\r\nf")
    assert screen.scrolled == 3
    assert [line[0].data for line in screen.history] == ["b", "c"]
    assert fed("\n\n\n", scrollback=0).history == []


def test_lines_that_are_changed() -> None:
    screen = fed("a")
    assert screen.dirty == {0, 1, 2}
    assert screen.dirty == set()
    screen.feed("\x1b[2;1Hb")
    assert screen.dirty == {1}


def test_sizes() -> None:
    # (lines and cursors are those that xterm 379 has without saved lines)
    screen = fed("1\r\n2\r\nabc")
    screen.resize(2, 2)
    assert (screen.columns, screen.lines) == (2, 2)
    assert screen.display == ["2 ", "ab"]
    assert (screen.cursor.x, screen.cursor.y) == (1, 1)
    assert ["".join(it.data for it in line) for line in screen.history] == ["1         "]
    assert screen.dirty == {0, 1}
    screen.resize(lines=3)
    assert screen.display == ["2 ", "ab", "  "]
    screen.resize(columns=1)
    assert screen.display == ["2", "a", " "]
    with pytest.raises(ValueError, match="no number"):
        screen.resize(0, 1)


def test_chunks() -> None:
    whole = fed(STREAM)
    assert whole.alternate and whole.cursor.hidden and not whole.reversed
    for size in range(1, len(STREAM)):
        with Screen(10, 3) as screen:
            for at in range(0, len(STREAM), size):
                screen.feed(memoryview(STREAM)[at : at + size])
            assert screen.buffer == whole.buffer
            assert (screen.cursor, screen.title) == (whole.cursor, whole.title)


def test_what_is_no_screen() -> None:
    for columns, lines in ((0, 1), (1, 0), (65536, 1), (-1, 1)):
        with pytest.raises(ValueError, match="no number"):
            Screen(columns, lines)
    screen = fed("a")
    screen.close()
    screen.close()
    with pytest.raises(ValueError, match="the screen is closed"):
        screen.feed("b")
    with pytest.raises(ValueError, match="the screen is closed"):
        _ = screen.display
