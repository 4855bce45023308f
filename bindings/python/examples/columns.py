#!/usr/bin/env python3
# SPDX-License-Identifier: MIT
"""Filters a column of logs, and says what became of their bytes: of frames of pandas.

Spark hands such frames to a function by mapInPandas; each is filtered where it lies:

    kept = table.mapInPandas(lambda frames: sanitize_frames(frames, "log"), schema)

where `schema` has the columns of the table and a `long` for each field of `Account`. A column of
Arrow goes through `to_pandas` and `pyarrow.array`.
"""

from collections.abc import Iterable, Iterator
from dataclasses import astuple, fields
from typing import Any

import pandas

from escape_stream import Account, Policy, Sanitizer

FATES = [it.name for it in fields(Account)]


def sanitize(log: bytes, policy: Policy) -> tuple[bytes, Account]:
    """Returns what passes of a log, line by line, and the account of its bytes."""
    with Sanitizer(policy) as it:
        text = it.feed(log) + it.finish()
        return text, it.account()


def sanitize_frames(
    frames: Iterable[Any], column: str, policy: Policy = Policy.COLOR
) -> Iterator[Any]:
    """Yields the frames with the logs of a column filtered, and a column for each fate of bytes."""
    for frame in frames:
        rows = [sanitize(log, policy) for log in frame[column]]
        accounts = pandas.DataFrame(
            [astuple(account) for _, account in rows], columns=FATES, index=frame.index
        )
        texts = pandas.Series([text for text, _ in rows], index=frame.index, dtype=object)
        yield pandas.concat([frame.assign(**{column: texts}), accounts], axis="columns")
