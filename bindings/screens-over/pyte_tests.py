# SPDX-License-Identifier: MIT
"""The tests of pyte's screen, tests/test_screen.py, over the proved one in the place of pyte's."""

import ast
import sys
from collections.abc import Callable, Iterator
from pathlib import Path
from types import ModuleType, SimpleNamespace

import escape_stream
from escape_stream import Char, RequestKind, Underline

# Calls of a screen, and the final byte of the control sequence with their numbers.
SEQUENCES = {
    "insert_lines": "L",
    "delete_lines": "M",
    "insert_characters": "@",
    "delete_characters": "P",
    "erase_characters": "X",
    "erase_in_line": "K",
    "erase_in_display": "J",
    "cursor_up": "A",
    "cursor_down": "B",
    "cursor_forward": "C",
    "cursor_back": "D",
    "cursor_to_column": "G",
    "cursor_to_line": "d",
    "cursor_position": "H",
    "clear_tab_stop": "g",
    "set_margins": "r",
    "select_graphic_rendition": "m",
    "report_device_attributes": "c",
    "report_device_status": "n",
}
# The same without numbers, and what they write.
TEXTS = {
    "index": "\x1bD",
    "reverse_index": "\x1bM",
    "linefeed": "\n",
    "carriage_return": "\r",
    "backspace": "\b",
    "tab": "\t",
    "set_tab_stop": "\x1bH",
    "save_cursor": "\x1b7",
    "restore_cursor": "\x1b8",
    "alignment_display": "\x1b#8",
    "reset": "\x1bc",
}
# Modes as pyte has them: those of DEC are moved by five bits.
MODES = {"LNM": 20, "IRM": 4} | {
    name: number << 5
    for name, number in {"DECCOLM": 3, "DECSCNM": 5, "DECOM": 6, "DECAWM": 7, "DECTCEM": 25}.items()
}
COLORS = ("black", "red", "green", "brown", "blue", "magenta", "cyan", "white")
# The answers that pyte gives itself.
ANSWERS = {RequestKind.PRIMARY_ATTRIBUTES: "\x1b[?6c", RequestKind.STATUS: "\x1b[0n"}


class NotThereError(Exception):
    """The proved screen does not say this."""


class Pen(SimpleNamespace):
    """A cursor of a screen: where it is, and how the next character would look."""

    def __init__(self, screen: "Screen") -> None:
        object.__setattr__(self, "screen", screen)

    def __copy__(self) -> SimpleNamespace:
        return SimpleNamespace(x=self.x, y=self.y)

    @property
    def x(self) -> int:
        """The column; pyte counts one more while a wrap is pending."""
        cursor = self.screen.proved.cursor
        return cursor.x + cursor.pending

    @property
    def y(self) -> int:
        """The row."""
        return self.screen.proved.cursor.y

    @property
    def hidden(self) -> bool:
        """Whether it is hidden."""
        return self.screen.proved.cursor.hidden

    @property
    def attrs(self) -> Char:
        """How a character would look that comes now, which a space stands for."""
        with escape_stream.Screen(self.screen.columns, self.screen.lines) as other:
            other.feed(self.screen.stream + "\x1b[HX")
            return plain(other.line(0)[0])._replace(data=" ")

    def __setattr__(self, name: str, value: int) -> None:
        if name == "hidden":
            self.screen.feed("\x1b[?25" + "hl"[bool(value)])
            return
        place = {"x": self.screen.proved.cursor.x, "y": self.screen.proved.cursor.y, name: value}
        self.screen.feed(f"\x1b[{place['y'] + 1};{place['x'] + 1}H")


class Row:
    """The cells of a line."""

    def __init__(self, screen: "Screen", y: int) -> None:
        self.screen = screen
        self.y = y

    def __getitem__(self, x: int) -> Char:
        char = plain(self.screen.proved.line(self.y)[x])
        return char._replace(reverse=char.reverse != self.screen.proved.reversed)

    def __setitem__(self, x: int, char: Char) -> None:
        place = self.screen.proved.cursor
        color = f"3{COLORS.index(char.fg)}" if char.fg in COLORS else "39"
        self.screen.feed(f"\x1b[{self.y + 1};{x + 1}H\x1b[{color}m{char.data}\x1b[39m")
        self.screen.feed(f"\x1b[{place.y + 1};{place.x + 1}H")


class Screen:
    """A screen with the calls of pyte's, each of which feeds the proved one what does that."""

    def __init__(self, columns: int, lines: int) -> None:
        self.proved = escape_stream.Screen(columns, lines)
        self.stream = ""
        self.write_process_input: Callable[[str], None] = lambda answer: None
        self.cursor = Pen(self)

    def feed(self, text: str) -> None:
        """Takes a text, and answers what it asks."""
        self.stream += text
        self.proved.feed(text)
        for request in self.proved.requests:
            place = self.proved.cursor
            here = f"\x1b[{place.y + 1};{place.x + 1}R"
            self.write_process_input(ANSWERS.get(request.kind, here))

    draw = feed

    def __getattr__(self, name: str) -> object:
        if name in SEQUENCES:
            return lambda *words: self.feed(f"\x1b[{';'.join(map(str, words))}{SEQUENCES[name]}")
        if name in TEXTS:
            return lambda: self.feed(TEXTS[name])
        raise NotThereError(name)

    def set_mode(self, *modes: int) -> None:
        """Sets modes."""
        self.switch(modes, "h")

    def reset_mode(self, *modes: int) -> None:
        """Resets them."""
        self.switch(modes, "l")

    def switch(self, modes: tuple[int, ...], final: str) -> None:
        """Sets or resets modes."""
        for mode in modes:
            self.feed(f"\x1b[?{mode >> 5}{final}" if mode >= 1 << 5 else f"\x1b[{mode}{final}")

    def set_title(self, text: str) -> None:
        """Sets the title."""
        self.feed(f"\x1b]2;{text}\x1b\\")

    def set_icon_name(self, text: str) -> None:
        """Sets the name of the icon."""
        self.feed(f"\x1b]1;{text}\x1b\\")

    def resize(self, lines: int, columns: int) -> None:
        """Changes its size. How characters look is read of streams without such a change."""
        self.proved.resize(lines, columns)

    @property
    def display(self) -> list[str]:
        """The text of its lines."""
        return self.proved.display

    @property
    def buffer(self) -> list[Row]:
        """Its lines."""
        return [Row(self, y) for y in range(self.lines)]

    @property
    def default_char(self) -> Char:
        """A blank cell."""
        return Char(" ", reverse=self.proved.reversed)

    @property
    def title(self) -> str:
        """The title."""
        return self.proved.title

    @property
    def dirty(self) -> set[int]:
        """The lines that have changed since the last look."""
        return self.proved.dirty

    @property
    def columns(self) -> int:
        """How many columns it has."""
        return self.proved.columns

    @property
    def lines(self) -> int:
        """How many lines it has."""
        return self.proved.lines


class Stream:
    """A stream to a screen."""

    def __init__(self, screen: Screen) -> None:
        self.screen = screen

    def feed(self, chunk: str | bytes) -> None:
        """Takes a chunk of it."""
        self.screen.feed(chunk if isinstance(chunk, str) else chunk.decode())


def plain(char: Char) -> Char:
    """A cell with what pyte says of one."""
    return char._replace(underline=Underline.NONE, underline_color="default", link=0)


def modules() -> dict[str, ModuleType]:
    """The modules that the tests import."""
    names = ("pytest", "pyte", "pyte.modes", "pyte.control", "pyte.graphics", "pyte.screens")
    found = {name: ModuleType(name) for name in names}
    found["pytest"].mark = SimpleNamespace(xfail=lambda test: None)
    for name in ("modes", "control", "graphics", "screens"):
        setattr(found["pyte"], name, found[f"pyte.{name}"])
    vars(found["pyte"]).update(Screen=Screen, Stream=Stream, ByteStream=Stream)
    vars(found["pyte.modes"]).update(MODES)
    vars(found["pyte.control"]).update(CSI="\x1b[")
    vars(found["pyte.graphics"]).update(FG_256=38, BG_256=48)
    vars(found["pyte.screens"]).update(Char=Char)
    return found


class Looks(ast.NodeTransformer):
    """Makes each `assert` a look, which is noted and never ends the test."""

    def visit_Assert(self, node: ast.Assert) -> ast.Expr:
        """Takes one."""
        test = ast.unparse(node.test)
        look = ast.parse(f"look({node.lineno}, lambda: ({test}), {test!r})").body[0]
        return ast.copy_location(look, node)


def results(folder: Path) -> Iterator[tuple[str, str]]:
    """Yields each line of the tests that looks at something, and how it differs. A line that looks
    at what the proved screen does not say is left out, and all that comes after a call that it does
    not have."""
    place = folder / "test_screen.py"
    tree = ast.fix_missing_locations(Looks().visit(ast.parse(place.read_text())))
    found: dict[str, str] = {}

    def look(line: int, test: Callable[[], object], words: str) -> None:
        name = f"{place.name}:{line}"
        try:
            found[name] = found.get(name) or ("" if test() else words)
        except NotThereError:
            pass
        except LookupError as fault:
            found[name] = f"{words}: {type(fault).__name__}"

    before = dict(sys.modules)
    sys.modules.update(modules())
    try:
        names: dict[str, object] = {"look": look}
        exec(compile(tree, str(place), "exec"), names)
    finally:
        sys.modules.clear()
        sys.modules.update(before)
    for name, test in names.items():
        if name.startswith("test_") and test is not None:
            try:
                test()
            except NotThereError:
                pass
    yield from sorted(found.items(), key=lambda it: int(it[0].split(":")[1]))
