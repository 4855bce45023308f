# SPDX-License-Identifier: MIT
"""The example for Dask gives of each file what a sanitizer gives of the whole, also if a worker
dies, and what escfilter writes, where ESCFILTER names it."""

import json
import os
import runpy
import signal
import subprocess
import sys
from dataclasses import astuple
from pathlib import Path
from typing import Any

import pytest
from rows import rows

from escape_stream import Account, Policy, Sanitizer

EXAMPLE = Path(__file__).resolve().parent.parent / "examples/filter_folder.py"
# Outputs, an input, a comment, and a colour that the end takes back.
CAST = b"""{"version": 2, "width": 80, "height": 24}
[0.5, "o", "a\\u001b]0;ti"]
[0.75, "i", "key"]
# a comment

[1, "o", "tle\\u0007b\\u001b[31mr\\u00e9d"]
[1.5, "r", "90x24"]
"""


def logs() -> list[bytes]:
    """Returns the streams of the tables as eight logs."""
    streams = [it for it in (row.bytes("stream") for row in rows()) if it is not None]
    return [b"\x18\n".join(streams[at::8]) for at in range(8)]


def sanitized(log: bytes, policy: Policy) -> tuple[bytes, Account]:
    with Sanitizer(policy) as it:
        return it.feed(log) + it.finish(), it.account()


def line(numbers: tuple[int, ...], name: str) -> str:
    return " ".join(f"{it:11}" for it in numbers) + f" {name}"


def said_by_the_program(words: list[str], log: bytes) -> bytes:
    program = [os.environ["ESCFILTER"], *words]
    return subprocess.run(program, input=log, check=True, capture_output=True).stdout


def test_a_folder_with_several_workers(tmp_path: Path) -> None:
    pytest.importorskip("dask")
    pytest.importorskip("distributed")
    folder, out = tmp_path / "in", tmp_path / "out"
    folder.mkdir()
    for number, log in enumerate(logs()):
        (folder / f"{number}.log").write_bytes(log)
    words = [sys.executable, str(EXAMPLE), "--policy=color", "--workers=2", str(folder), str(out)]
    done = subprocess.run(
        words, check=True, capture_output=True, text=True, cwd=tmp_path, env=environment()
    )
    lines = done.stdout.splitlines()
    assert lines[0].split() == list(Account.__annotations__)
    wanted = [sanitized(log, Policy.COLOR) for log in logs()]
    for number, (text, account) in enumerate(wanted):
        assert (out / f"{number}.log").read_bytes() == text
        assert lines[1 + number] == line(astuple(account), f"{number}.log")
    sums = [sum(it) for it in zip(*(astuple(account) for _, account in wanted))]
    assert lines[9:] == [line(tuple(sums), "all")]
    if "ESCFILTER" in os.environ:
        for log, (text, _) in zip(logs(), wanted):
            assert said_by_the_program([], log) == text


def test_a_recording(tmp_path: Path) -> None:
    pytest.importorskip("distributed")
    source, target = tmp_path / "in.cast", tmp_path / "out.cast"
    source.write_bytes(CAST)
    sanitize_file = runpy.run_path(str(EXAMPLE))["sanitize_file"]
    account = sanitize_file(str(source), str(target), int(Policy.COLOR))
    events = [json.loads(it) for it in target.read_text().splitlines()]
    assert events == [
        {"version": 2, "width": 80, "height": 24},
        [0.5, "o", "a"],
        [0.75, "i", "key"],
        [1, "o", "b\x1b[31mréd"],
        [1.5, "r", "90x24"],
        [1.5, "o", "\x1b[0m"],
    ]
    # ("a", "b" and "réd" with its colour; the title is left out)
    assert (account.passed, account.left_out, account.length) == (11, 10, 21)
    assert [it.name for it in tmp_path.iterdir() if it not in (source, target)] == []
    if "ESCFILTER" in os.environ:
        said = said_by_the_program(["--cast"], CAST).splitlines()
        assert [json.loads(it) for it in said if it and not it.startswith(b"#")] == events


def die_once(mark: str, work: Any, *words: Any) -> Any:
    """Kills the process of the worker at the first call, as the system does for want of memory."""
    if not os.path.exists(mark):
        Path(mark).touch()
        os.kill(os.getpid(), signal.SIGKILL)
    return work(*words)


def test_a_worker_that_dies(tmp_path: Path) -> None:
    pytest.importorskip("dask")
    distributed = pytest.importorskip("distributed")
    sanitize_file = runpy.run_path(str(EXAMPLE))["sanitize_file"]
    here = {"n_workers": 2, "threads_per_worker": 1, "dashboard_address": None}
    with distributed.Client(**here) as client:
        tasks = []
        for number, log in enumerate(logs()):
            source, target = tmp_path / f"{number}.in", tmp_path / f"{number}.out"
            source.write_bytes(log)
            words = (str(source), str(target), int(Policy.TEXT))
            dying = (die_once, str(tmp_path / "mark"), sanitize_file)
            tasks.append(client.submit(*(dying if number == 3 else (sanitize_file,)), *words))
        accounts = client.gather(tasks)
    assert (tmp_path / "mark").exists()
    for number, log in enumerate(logs()):
        text, account = sanitized(log, Policy.TEXT)
        assert (tmp_path / f"{number}.out").read_bytes() == text
        assert accounts[number] == account


def environment() -> dict[str, str]:
    """Returns an environment in which a program finds this package, and Dask starts no more than it
    needs."""
    path = os.pathsep.join([it for it in sys.path if it])
    return {**os.environ, "PYTHONPATH": path}
