# SPDX-License-Identifier: MIT
"""The tables of streams that the proved programs are checked against. docs/DEVELOPING.md has their
form."""

import os
import re
from collections.abc import Iterator
from pathlib import Path

# The top of the repository.
TOP = Path(os.environ.get("ESCAPE_STREAM_TOP") or Path(__file__).resolve().parents[3])
TABLES = TOP / "crates/stream_tables/data"


class Row:
    """The lines of a row."""

    def __init__(self, lines: list[str]) -> None:
        self.lines = lines
        self.name = lines[0] if lines else ""

    def bytes(self, word: str) -> bytes | None:
        """Returns what its lines of this word stand for, joined, or None where there is none."""
        found = None
        for line in self.lines:
            head, _, text = line.partition(" ")
            name, _, times = head.partition("*")
            if name == word:
                found = (found or b"") + unescaped(text.lstrip(" ")) * int(times or 1)
        return found


def unescaped(text: str) -> bytes:
    """Returns the bytes that a text writes: `\\xNN` is a byte, `\\\\` is `\\`, any other character
    is itself."""

    def one(found: re.Match[bytes]) -> bytes:
        return bytes([int(found[1], 16)]) if found[1] else b"\\"

    return re.sub(rb"\\(?:x([0-9a-f]{2})|\\)", one, text.encode())


def rows() -> Iterator[Row]:
    """Yields each row of each table."""
    for table in sorted(TABLES.glob("*.txt")):
        for block in table.read_text().split("\n\n"):
            yield Row([it for it in block.splitlines() if not it.startswith("#")])


def cuts(stream: bytes) -> Iterator[list[bytes]]:
    """Yields the stream whole, and in chunks of each size up to 40 bytes."""
    yield [stream]
    for size in range(1, min(len(stream), 41)):
        yield [stream[at : at + size] for at in range(0, len(stream), size)]
