# SPDX-License-Identifier: MIT
"""The tests of libvterm's states and screens: t/*.test, in the language of its run-test.pl."""

import re
from collections.abc import Iterator
from pathlib import Path

from escape_stream import Char, Screen

ESCAPES = {"e": "\x1b", "n": "\n", "r": "\r", "t": "\t", "b": "\b", "a": "\a", "f": "\f"}
ESCAPE = re.compile(r"\\(?:x\{([0-9A-Fa-f]+)\}|x([0-9A-Fa-f]{1,2})|([0-7]{1,3})|(.))", re.S)
PART = re.compile(r'"((?:[^"\\]|\\.)*)"(?:\s*x\s*(\d+))?')
FIRST = (25, 80)
# The intensities of libvterm's first 16 colours, by the names of `Char`.
COLORS = {
    (0, 0, 0): "black",
    (224, 0, 0): "red",
    (0, 224, 0): "green",
    (224, 224, 0): "brown",
    (0, 0, 224): "blue",
    (224, 0, 224): "magenta",
    (0, 224, 224): "cyan",
    (224, 224, 224): "white",
    (128, 128, 128): "brightblack",
    (255, 64, 64): "brightred",
    (64, 255, 64): "brightgreen",
    (255, 255, 64): "brightbrown",
    (64, 64, 255): "brightblue",
    (255, 64, 255): "brightmagenta",
    (64, 255, 255): "brightcyan",
    (255, 255, 255): "brightwhite",
}


def text_of(words: str) -> bytes:
    """The bytes of a string of Perl: parts in quotes, each maybe so many times."""

    def escape(match: re.Match[str]) -> str:
        code, byte, octal, letter = match.groups()
        if code or byte:
            return chr(int(code or byte, 16))
        return chr(int(octal, 8)) if octal else ESCAPES.get(letter, letter)

    text = "".join(
        ESCAPE.sub(escape, part) * int(times or 1) for part, times in PART.findall(words)
    )
    return b"".join(c.encode("latin-1") if ord(c) < 256 else c.encode() for c in text)


def is_utf8(stream: bytes) -> bool:
    """Whether a stream is UTF-8."""
    try:
        stream.decode()
    except UnicodeDecodeError:
        return False
    return True


def color(words: str, name: str) -> str | None:
    """A colour, as `Char` has it; `None` where it is not to be compared."""
    if "is_default" in words:
        return "default"
    if match := re.match(r"idx\((\d+)", words):
        entry = int(match[1])
        return list(COLORS.values())[entry] if entry < 16 else None
    numbers = tuple(map(int, re.findall(r"\d+", words)[:3]))
    if numbers == {"fg": (240, 240, 240), "bg": (0, 0, 0)}[name]:
        return "default"
    return COLORS.get(numbers, "".join(f"{it:02x}" for it in numbers))


class Test:
    """A test: the screen as it is so far, and what was compared."""

    def __init__(self, name: str) -> None:
        self.name = name
        self.size = FIRST
        self.found: list[tuple[str, str]] = []
        self.glyphs: dict[tuple[int, int], tuple[int, str]] = {}
        self.begin()

    def begin(self) -> None:
        """Begins a blank screen."""
        self.stream = b""
        self.is_followed = True
        self.screen = Screen(self.size[1], self.size[0], scrollback=100)

    def note(self, line: int, wanted: object, is_: object) -> None:
        """Notes what was compared."""
        how = "" if wanted == is_ else f"{wanted!r} and {is_!r}"
        self.found.append((f"{self.name}:{line}", how))

    def rows(self, numbers: list[int]) -> str:
        """The text within a rectangle, without the spaces at the ends of its rows."""
        top, left, bottom, right = numbers
        buffer = self.screen.buffer
        lines = [
            "".join(cell.data for cell in buffer[y][left:right]).rstrip()
            for y in range(top, min(bottom, len(buffer)))
        ]
        return "\n".join(lines).rstrip("\n")

    def pen(self) -> Char:
        """How the next character would look."""
        with Screen(self.size[1], self.size[0]) as screen:
            screen.feed(self.stream + b"\x1b[HX")
            return screen.buffer[0][0]

    def settle(self) -> None:
        """Compares the characters that the last command put, the last one at each place."""
        for (y, x), (line, data) in self.glyphs.items():
            if y < self.screen.lines and x < self.screen.columns:
                self.note(line, data, self.screen.buffer[y][x].data)
        self.glyphs = {}

    def command(self, words: str) -> None:
        """Takes a line with a command."""
        self.settle()
        name, _, rest = words.partition(" ")
        if name == "PUSH":
            stream = text_of(rest)
            self.stream += stream
            self.screen.feed(stream)
        elif name in ("INIT", "RESET"):
            if name == "INIT":
                self.size = FIRST
            self.begin()
        elif name == "RESIZE":
            lines, columns = map(int, rest.split(","))
            self.size = (lines, columns)
            # what comes before the next RESET is not followed
            self.is_followed = False
        elif name in ("UTF8", "SETDEFAULTCOL"):
            self.is_followed &= rest.strip() == "1"

    def expect(self, line: int, words: str) -> None:
        """Compares a line with what is expected."""
        # the terminal is one of UTF-8
        if not self.is_followed or not is_utf8(self.stream):
            return
        name, _, rest = words.partition(" ")
        if name == "putglyph":
            glyph, _, place = rest.split()[:3]
            y, x = map(int, place.split(","))
            data = "".join(chr(int(it, 16)) for it in glyph.split(","))
            self.glyphs[y, x] = line, data[:3]
        elif name in ("?cursor", "?screen_row", "?screen_chars", "?screen_text"):
            what, _, value = rest.partition("=")
            getattr(self, name[1:])(line, what, value.strip())
        elif name == "?screen_cell":
            self.screen_cell(line, rest)
        elif name == "?pen":
            self.screen_pen(line, rest)

    def cursor(self, line: int, what: str, value: str) -> None:
        """?cursor = ROW,COLUMN"""
        cursor = self.screen.cursor
        self.note(line, tuple(map(int, value.split(","))), (cursor.y, cursor.x))

    def screen_row(self, line: int, what: str, value: str) -> None:
        """?screen_row ROW = "TEXT" """
        row = int(what)
        if value.startswith("0x"):
            wanted = "".join(chr(int(it, 16)) for it in value.split(","))
        else:
            wanted = text_of(value).decode("utf-8", "replace")
        self.note(line, wanted.rstrip(), self.rows([row, 0, row + 1, self.size[1]]))

    def screen_chars(self, line: int, what: str, value: str) -> None:
        """?screen_chars TOP,LEFT,BOTTOM,RIGHT = "TEXT" """
        if value.startswith("0x"):
            return self.screen_text(line, what, value)
        numbers = list(map(int, what.split(",")))
        wanted = text_of(value).decode("utf-8", "replace")
        self.note(line, wanted.rstrip(), self.rows(numbers))

    def screen_text(self, line: int, what: str, value: str) -> None:
        """?screen_text TOP,LEFT,BOTTOM,RIGHT = BYTE,BYTE.."""
        numbers = list(map(int, what.split(",")))
        codes = [int(it, 16) for it in value.split(",") if it.strip()]
        wanted = bytes(it for it in codes if it < 256).decode("utf-8", "replace")
        self.note(line, wanted.rstrip(), self.rows(numbers))

    def screen_cell(self, line: int, rest: str) -> None:
        """?screen_cell ROW,COLUMN = {CODE,..} width=N attrs={..} fg=.. bg=.."""
        match = re.match(
            r"(\d+),(\d+)\s*=\s*\{(.*?)\} width=(\d) attrs=\{(.*?)\} (?:dwl \S+ )?fg=(\S+) bg=(\S+)",
            rest,
        )
        if not match:
            return
        y, x = int(match[1]), int(match[2])
        codes = [int(it, 16) for it in match[3].split(",") if it.strip()]
        attrs = match[5]
        cell = self.screen.buffer[y][x]
        wide = x + 1 < self.size[1] and self.screen.buffer[y][x + 1].data == ""
        underline = re.search(r"U(\d)", attrs)
        wanted = (
            "".join(map(chr, codes))[:3] or " ",
            int(match[4]),
            *("B" in attrs, "I" in attrs, int(underline[1]) if underline else 0),
            *(color(match[6], "fg"), color(match[7], "bg")),
        )
        is_ = (
            cell.data,
            1 + wide,
            *(cell.bold, cell.italics, int(cell.underline)),
            *(cell.fg, cell.bg),
        )
        self.note(line, wanted, is_)

    def screen_pen(self, line: int, rest: str) -> None:
        """?pen NAME = VALUE"""
        name, _, value = map(str.strip, rest.partition("="))
        pen = self.pen()
        flags = {"bold": pen.bold, "italic": pen.italics, "blink": pen.blink, "reverse": pen.reverse}
        if name in flags:
            self.note(line, value == "on", flags[name])
        elif name == "underline":
            self.note(line, int(value), int(pen.underline))
        elif name in ("foreground", "background"):
            short = {"foreground": "fg", "background": "bg"}[name]
            if (wanted := color(value, short)) is not None:
                self.note(line, wanted, getattr(pen, short))


def lines_of(text: str) -> Iterator[tuple[int, str]]:
    """The lines of a test, those with $SEQ and $REP so many times."""
    for number, line in enumerate(text.splitlines(), 1):
        line = line.strip()
        if match := re.match(r"\$SEQ\s+(\d+)\s+(\d+):\s*(.*)", line):
            for at in range(int(match[1]), int(match[2]) + 1):
                yield number, match[3].replace("\\#", str(at))
        elif match := re.match(r"\$REP\s+(\d+):\s*(.*)", line):
            for _ in range(int(match[1])):
                yield number, match[2]
        elif line and not line.startswith(("#", "!")):
            yield number, line


def results(folder: Path) -> Iterator[tuple[str, str]]:
    """Yields each line that was compared, and how it differs."""
    for place in sorted(folder.glob("*.test")):
        if "WANTPARSER" in place.read_text() or "WANTENCODING" in place.read_text():
            continue
        test = Test(place.name)
        for number, line in lines_of(place.read_text()):
            if line[0].isupper():
                test.command(line)
            else:
                test.expect(number, line)
        test.settle()
        counts: dict[str, int] = {}
        for name, how in test.found:
            counts[name] = counts.get(name, 0) + 1
            yield (name if counts[name] == 1 else f"{name}#{counts[name]}"), how
