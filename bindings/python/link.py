#!/usr/bin/env python3
# SPDX-License-Identifier: MIT
"""Links the proved archive, and events.c, into the shared object that the package loads.

  python3 link.py FOLDER FILE    FOLDER has libescape_stream.a; FILE is made

CC is the compiler that links, `cc` where it is not set.
"""

import os
import subprocess
import sys
import tempfile
from pathlib import Path

ARCHIVE = "libescape_stream.a"
HERE = Path(__file__).resolve().parent
# Where the header lies, and events.c: beside this file, in the repository, in a release. Else they
# are looked for beside the folder with the archive.
HEADERS = [HERE, HERE / "../../crates/stream_c/include", HERE / "../../include"]
EVENTS = [HERE, HERE / "../shims/python"]
# Only the calls of the headers are seen from outside.
EXPORTS = "{ global: escape_stream_*; local: *; };\n"


def events_beside(folder: Path) -> Path:
    """Returns the place of events.c."""
    places = [it / "events.c" for it in (*EVENTS, folder / "../bindings/shims/python")]
    for it in places:
        if it.is_file():
            return it
    raise FileNotFoundError(f"events.c is in none of {', '.join(map(str, places))}")


def link(folder: Path, made: Path, alone: bool = False) -> None:
    """Links the archive in a folder into a shared object. One that is alone names no library, so
    that glibc of any version loads it, and musl."""
    archive = folder / ARCHIVE
    if not archive.is_file():
        raise FileNotFoundError(f"{archive} is not there: build it, or set ESCAPE_STREAM_LIB")
    made.parent.mkdir(parents=True, exist_ok=True)
    with tempfile.NamedTemporaryFile("w", suffix=".map") as exports:
        exports.write(EXPORTS)
        exports.flush()
        words = [os.environ.get("CC") or "cc", "-shared", "-o", str(made)]
        words += [f"-Wl,--version-script={exports.name}", "-Wl,--gc-sections"]
        words += ["-nostdlib", "-s", "-Wl,--build-id=sha1"] if alone else ["-Wl,-z,defs"]
        words += ["-std=c11", "-O2", "-fPIC", str(events_beside(folder))]
        words += [f"-I{it}" for it in (*HEADERS, folder / "../include")]
        words += ["-Wl,--whole-archive", str(archive), "-Wl,--no-whole-archive"]
        subprocess.run(words, check=True)


if __name__ == "__main__":
    if len(sys.argv) != 3:
        sys.exit(__doc__)
    link(Path(sys.argv[1]), Path(sys.argv[2]))
