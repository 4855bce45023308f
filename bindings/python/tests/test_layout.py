# SPDX-License-Identifier: MIT
"""The declarations of the package against the headers, as a C compiler reads them: sizes, and the
place of each field."""

import ctypes
import os
import shutil
import subprocess
from enum import IntEnum, IntFlag
from pathlib import Path

import pytest
from rows import TOP

from escape_stream import (
    Characters,
    CommandKind,
    Encoding,
    FieldName,
    Framing,
    Group,
    ImageKind,
    Links,
    Medium,
    Policy,
    RequestKind,
    Returns,
    Show,
    SixelKind,
    Underline,
    _library,
)

STRUCTS: dict[str, type[ctypes.Structure]] = {
    "escape_stream_filter_state": _library.RawFilter,
    "escape_stream_sanitizer": _library.RawSanitizer,
    "escape_stream_sanitizer_options": _library.RawSanitizerOptions,
    "escape_stream_account": _library.RawAccount,
    "escape_stream_html": _library.RawPage,
    "escape_stream_normaliser": _library.RawNormaliser,
    "escape_stream_screen": _library.RawScreen,
    "escape_stream_screen_state": _library.RawScreenState,
    "escape_stream_cell": _library.RawCell,
    "escape_stream_request": _library.RawRequest,
    "escape_stream_function_info": _library.RawFunction,
    "escape_stream_field": _library.RawField,
    "escape_stream_osc": _library.RawOsc,
    "escape_stream_image": _library.RawImage,
    "escape_stream_query": _library.RawQuery,
    "escape_stream_sixel": _library.RawSixel,
    "escape_stream_sixel_item": _library.RawSixelItem,
}
STATUSES = (
    *("DONE", "NO_MEMORY", "UNKNOWN_POLICY", "NOT_BEGUN", "NO_COMMAND", "NOT_WRITABLE"),
    *("UNKNOWN_SIZE", "UNKNOWN_GROUP", "UNKNOWN_LINKS", "UNKNOWN_FRAMING", "UNKNOWN_CHARACTERS"),
    *("UNKNOWN_RETURNS", "UNKNOWN_ENCODING", "UNKNOWN_SHOW", "TOO_MANY_ROWS", "TOO_MANY_COLUMNS"),
)
VALUES = ("VALUE_NUMBER", "VALUE_TEXT", "VALUE_SIZE")
KINDS = (
    "NONE TEXT CHARACTER CONTROL ESCAPE CSI OSC DCS DATA DATA_BYTE DCS_END APC FAILED LIMIT".split()
)
ENUMS: dict[str, type[IntEnum] | type[IntFlag]] = {
    "POLICY": Policy,
    "GROUP": Group,
    "LINKS": Links,
    "FRAMING": Framing,
    "CHARACTERS": Characters,
    "RETURNS": Returns,
    "ENCODING": Encoding,
    "SHOW": Show,
    "OSC": CommandKind,
    "KITTY": ImageKind,
    "MEDIUM": Medium,
    "SIXEL": SixelKind,
    "FIELD": FieldName,
    "REQUEST": RequestKind,
    "UNDERLINE": Underline,
}
HEADERS = [TOP / "crates/escape_c/include", TOP / "crates/stream_c/include"]


def declared() -> dict[str, int]:
    """Returns the size of each struct, the place of each field and each number, as the package has
    them."""
    found = {}
    for name, struct in STRUCTS.items():
        found[f"sizeof(struct {name})"] = ctypes.sizeof(struct)
        for field in struct._fields_:
            found[f"offsetof(struct {name}, {field[0]})"] = getattr(struct, field[0]).offset
    for word in (*STATUSES, *KINDS, *VALUES):
        found[f"ESCAPE_STREAM_{word}"] = getattr(_library, word)
    for prefix, enum in ENUMS.items():
        for it in enum:
            found[f"ESCAPE_STREAM_{prefix}_{it.name}"] = int(it.value)
    return found


def test_layout(tmp_path: Path) -> None:
    compiler = os.environ.get("CC") or "cc"
    if not shutil.which(compiler):
        pytest.skip("no C compiler")
    wanted = declared()
    lines = [f'printf("%zu\\n", (size_t){it});' for it in wanted]
    names = ("escape_stream.h", "escape_stream_parser.h", "escape_stream_screen.h", "stdio.h")
    includes = "".join(f"#include <{name}>\n" for name in names)
    (tmp_path / "layout.c").write_text(
        f"{includes}int main(void) {{ {' '.join(lines)} return 0; }}\n"
    )
    words = [
        compiler,
        *(f"-I{it}" for it in HEADERS),
        str(tmp_path / "layout.c"),
        "-o",
        str(tmp_path / "layout"),
    ]
    subprocess.run(words, check=True)
    said = subprocess.run([tmp_path / "layout"], check=True, capture_output=True, text=True).stdout
    assert dict(zip(wanted, map(int, said.split()))) == wanted
