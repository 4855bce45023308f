# SPDX-License-Identifier: MIT
"""The example for columns of logs keeps the frames' other columns, and accounts for each byte."""

import runpy
from pathlib import Path

import pytest

from escape_stream import Policy

EXAMPLE = Path(__file__).resolve().parent.parent / "examples/columns.py"
LOGS = [b"one\x1b]0;title\x07\n", b"\x1b[31mred\n", b"two\x1b]0;no end\nthree\n", b""]


def test_frames_of_pandas() -> None:
    pandas = pytest.importorskip("pandas")
    sanitize_frames = runpy.run_path(str(EXAMPLE))["sanitize_frames"]
    table = pandas.DataFrame({"host": list("abcd"), "log": LOGS}, index=[3, 1, 4, 2])
    first, second = sanitize_frames([table[:1], table[1:]], "log", Policy.TEXT)
    kept = pandas.concat([first, second])
    assert list(kept.index) == [3, 1, 4, 2]
    assert list(kept["host"]) == list("abcd")
    assert list(kept["log"]) == [b"one\n", b"red\n", b"two\nthree\n", b""]
    # (the title has 10 bytes, the rendition 5, and the title without an end 10 and its line feed)
    assert list(kept["passed"]) == [4, 4, 9, 0]
    assert list(kept["left_out"]) == [10, 5, 0, 0]
    assert list(kept["swallowed"]) == [0, 0, 11, 0]
    assert list(kept["length"]) == [len(log) for log in LOGS]
