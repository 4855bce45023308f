#!/usr/bin/env python3
# SPDX-License-Identifier: MIT
"""Filters a folder of logs and recordings with several workers, and says what became of their
bytes, by Dask.

  filter_folder.py [--policy text|color|screen|all] [--workers N] FOLDER OUT

For each file of FOLDER it writes to OUT, under the same name, the output of `escfilter` by the
policy, and for a recording of asciinema, whose name ends in .cast, of `escfilter --cast`. It prints
a table: for each file, and for all, how many bytes had each fate. A file is a task, in a process of
its own. If a worker dies, another does its tasks again; a file stands in OUT once it is whole.
`--scheduler ADDRESS` sends the tasks to a cluster that runs, whose machines see both folders.
"""

import argparse
import json
import os
import sys
from dataclasses import astuple, fields
from pathlib import Path
from typing import IO, Any

from dask.distributed import Client

from escape_stream import Account, Policy, Sanitizer

CHUNK = 1 << 20
FATES = [it.name for it in fields(Account)]


def sanitize_log(read: IO[bytes], write: IO[bytes], log: Sanitizer) -> None:
    while chunk := read.read(CHUNK):
        write.write(log.feed(chunk))
    write.write(log.finish())


def sanitize_recording(read: IO[bytes], write: IO[bytes], log: Sanitizer) -> None:
    """Each event of output has the text that is added for it; comments and empty lines go."""

    def put(value: Any) -> None:
        write.write(json.dumps(value).encode() + b"\n")

    header, last = json.loads(read.readline()), 0
    put(header)
    for line in read:
        if line.strip() and not line.startswith(b"#"):
            time, kind, text = json.loads(line)
            if kind == "o":
                text = log.feed(text.encode(errors="replace")).decode()
            put([time, kind, text])
            last = time
    if end := log.finish().decode():
        # (version 3 counts each time from the event before)
        put([last if header["version"] == 2 else 0, "o", end])


def sanitize_file(source: str, target: str, policy: int) -> Account:
    """Filters a file, and returns the account of its bytes."""
    work = sanitize_recording if source.endswith(".cast") else sanitize_log
    part = f"{target}.{os.getpid()}.part"
    with open(source, "rb") as read, open(part, "wb") as write, Sanitizer(Policy(policy)) as log:
        work(read, write, log)
        account = log.account()
    os.replace(part, target)
    return account


def main() -> None:
    words = argparse.ArgumentParser(
        description=__doc__, formatter_class=argparse.RawDescriptionHelpFormatter
    )
    words.add_argument("--policy", choices=[it.name.lower() for it in Policy], default="color")
    words.add_argument("--workers", type=int, default=2, metavar="N")
    words.add_argument("--scheduler", metavar="ADDRESS")
    words.add_argument("folder", type=Path, metavar="FOLDER")
    words.add_argument("out", type=Path, metavar="OUT")
    given = words.parse_args()
    given.out.mkdir(parents=True, exist_ok=True)
    if given.out.samefile(given.folder):
        sys.exit("filter_folder.py: OUT is FOLDER")
    files = sorted(it for it in given.folder.iterdir() if it.is_file())
    policy = int(Policy[given.policy.upper()])
    here = {"n_workers": given.workers, "threads_per_worker": 1, "dashboard_address": None}
    where = {"address": given.scheduler} if given.scheduler else here
    connect: Any = Client
    with connect(**where) as client:
        tasks = [
            client.submit(sanitize_file, str(it), str(given.out / it.name), policy) for it in files
        ]
        rows = [astuple(it) for it in client.gather(tasks)]
    print(" ".join(f"{it:>11}" for it in FATES))
    for name, row in zip([it.name for it in files] + ["all"], [*rows, map(sum, zip(*rows))]):
        print(" ".join(f"{it:11}" for it in row), name)


if __name__ == "__main__":
    main()
