# SPDX-License-Identifier: MIT
"""The calls against the tables of streams, whole and in chunks of every size up to 40 bytes."""

from rows import cuts, rows

from escape_stream import Filter, Normaliser, Policy, events, filter, is_normal, joined, normal

POLICIES = {
    "as-text": Policy.TEXT,
    "as-color": Policy.COLOR,
    "as-screen": Policy.SCREEN,
    "as-all": Policy.ALL,
}
# The chunks of longer streams are of one byte, and not of every size.
EACH_SIZE_UP_TO = 2000


def chunks_of(stream: bytes) -> list[list[bytes]]:
    """Returns the ways to cut a stream that are tried."""
    if len(stream) > EACH_SIZE_UP_TO:
        return [[stream], [stream[at : at + 4096] for at in range(0, len(stream), 4096)]]
    return list(cuts(stream))


def test_normal_forms() -> None:
    count = 0
    for row in rows():
        stream = row.bytes("stream")
        if stream is None or row.bytes("limit") is not None or row.bytes("as-text") is not None:
            continue
        text = row.bytes("text")
        text = stream if text is None else text
        assert normal(stream) == text, row.name
        assert is_normal(stream) == (text == stream), row.name
        for chunks in chunks_of(stream):
            with Normaliser(len(stream)) as it:
                assert b"".join(map(it.feed, chunks)) + it.finish() == text, (row.name, len(chunks))
        count += 1
    assert count > 300


def test_what_policies_admit() -> None:
    count = 0
    for row in rows():
        stream, text = row.bytes("stream"), row.bytes("as-text")
        if stream is None or text is None:
            continue
        for word, policy in POLICIES.items():
            said = row.bytes(word)
            text = text if said is None else said
            for chunks in chunks_of(stream):
                with Filter(policy) as it:
                    passed = b"".join(map(it.feed, chunks))
                    assert passed == filter(stream, policy), (row.name, word, len(chunks))
                    assert passed + it.finish() == text, (row.name, word, len(chunks))
        count += 1
    assert count > 30


def test_limits() -> None:
    count = 0
    for row in rows():
        stream, limit, text, written = (
            row.bytes(it) for it in ("stream", "limit", "text", "as-all")
        )
        text = text if written is None else written
        if stream is None or limit is None or text is None:
            continue
        for chunks in chunks_of(stream):
            with Filter(Policy.ALL, int(limit)) as it:
                passed = b"".join(map(it.feed, chunks))
                assert passed == filter(stream, Policy.ALL, int(limit)), (row.name, len(chunks))
                assert passed + it.finish() == text, (row.name, len(chunks))
        count += 1
    assert count > 10


def test_events_however_a_stream_is_cut() -> None:
    count = 0
    for row in rows():
        stream = row.bytes("stream")
        if stream is None or len(stream) > EACH_SIZE_UP_TO:
            continue
        whole = list(joined(events(stream)))
        for chunks in cuts(stream):
            assert list(joined(events(chunks))) == whole, (row.name, len(chunks))
        count += 1
    assert count > 300
