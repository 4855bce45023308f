# SPDX-License-Identifier: MIT
"""The reference recordings of `alacritty_terminal`, with their grids."""

import json
from collections.abc import Iterator
from pathlib import Path

from escape_stream import Char, Screen, Underline

NAMES = "black red green brown blue magenta cyan white".split()
COLORS = "Black Red Green Yellow Blue Magenta Cyan White".split()
NAMED = {name: NAMES[at] for at, name in enumerate(COLORS)}
NAMED |= {f"Bright{name}": f"bright{NAMES[at]}" for at, name in enumerate(COLORS)}
UNDERLINES = {
    "UNDERLINE": Underline.SINGLE,
    "DOUBLE_UNDERLINE": Underline.DOUBLE,
    "UNDERCURL": Underline.CURLY,
    "DOTTED_UNDERLINE": Underline.DOTTED,
    "DASHED_UNDERLINE": Underline.DASHED,
}
FLAGS = {
    "BOLD": "bold",
    "ITALIC": "italics",
    "INVERSE": "reverse",
    "DIM": "faint",
    "HIDDEN": "concealed",
    "STRIKEOUT": "strikethrough",
}
LEVELS = (0, 95, 135, 175, 215, 255)


def color(value: object) -> str:
    """The colour of a cell, as `Char` has it."""
    if not isinstance(value, dict):
        return "default"
    if "Named" in value:
        return NAMED.get(value["Named"], "default")
    if "Spec" in value:
        return "{r:02x}{g:02x}{b:02x}".format(**value["Spec"])
    entry = value["Indexed"]
    if entry < 16:
        return "bright" * (entry > 7) + NAMES[entry % 8]
    if entry >= 232:
        return f"{8 + 10 * (entry - 232):02x}" * 3
    return "".join(f"{LEVELS[(entry - 16) // place % 6]:02x}" for place in (36, 6, 1))


def char(cell: dict) -> Char:
    """A cell of a grid as a `Char`, but for its link."""
    flags = set(str(cell["flags"]).replace(" ", "").split("|"))
    if flags & {"WIDE_CHAR_SPACER"}:
        data = ""
    else:
        extra = cell.get("extra") or {}
        data = " " if cell["c"] == "\t" else cell["c"] + "".join(extra.get("zerowidth", [])[:2])
    kinds = [kind for name, kind in UNDERLINES.items() if name in flags]
    underline = kinds[0] if kinds else Underline.NONE
    extra = cell.get("extra") or {}
    return Char(
        data,
        color(cell["fg"]),
        color(cell["bg"]),
        underscore=underline != Underline.NONE,
        underline=underline,
        underline_color=color(extra.get("underline_color")),
        **{field: flag in flags for flag, field in FLAGS.items()},
    )


def rows_of(grid: dict) -> list[list[Char]]:
    """The rows that a grid shows, from the first on. They lie in a ring, the last one first."""
    raw = grid["raw"]
    ring = raw["inner"]
    rows = []
    for line in range(grid["lines"]):
        at = (raw["zero"] + grid["lines"] - 1 - line) % len(ring)
        rows.append([char(cell) for cell in ring[at]["inner"]])
    return rows


def first_difference(wanted: list[list[Char]], found: list[list[Char]]) -> str:
    """Where two screens first differ, or nothing."""
    count = 0
    first = ""
    for y, (a, b) in enumerate(zip(wanted, found, strict=True)):
        for x, (one, other) in enumerate(zip(a, b, strict=True)):
            if one != other:
                count += 1
                first = first or f"row {y}, column {x}: {one} and {other}"
    return f"{count} cells; {first}" if count else ""


def results(folder: Path) -> Iterator[tuple[str, str]]:
    """Yields the name of each recording, and how its grid differs."""
    for place in sorted(folder.iterdir()):
        if not (place / "grid.json").is_file():
            continue
        size = json.loads((place / "size.json").read_text())
        wanted = rows_of(json.loads((place / "grid.json").read_text()))
        with Screen(size["columns"], size["screen_lines"]) as screen:
            screen.feed((place / "alacritty.recording").read_bytes())
            found = [
                [cell._replace(link=0, blink=False, overline=False) for cell in row]
                for row in screen.buffer
            ]
        yield place.name, first_difference(wanted, found)
