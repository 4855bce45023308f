/* SPDX-License-Identifier: MIT */
/* The filter and the normal form in chunks: what they write of a stream in any chunks is what the
 * call that takes it whole writes. */
#include "hard.h"
#include "escape_stream.h"

#include <string.h>

/* A filter or a normaliser, which has the same fields. */
union in_chunks {
    bool is_begun;
    struct escape_stream_filter_state filter;
    struct escape_stream_normaliser normaliser;
};

static struct area areas[2], outs;
static uint8_t given[TEXT_ROOM];

void begin_chunks(void) {
    areas[0] = guarded(PAGE);
    areas[1] = guarded(PAGE);
    outs = guarded(TEXT_ROOM);
}

static uint32_t begin_it(const struct text_call *call, union in_chunks *it) {
    at_hand.calls++;
    return call->filters ? escape_stream_filter_begin(&it->filter, call->policy, call->limit)
                         : escape_stream_normal_begin(&it->normaliser, call->limit);
}

static uint32_t feed_it(const struct text_call *call, union in_chunks *it, struct bytes chunk) {
    at_hand.calls++;
    return call->filters ? escape_stream_filter_feed(&it->filter, chunk.at, chunk.length)
                         : escape_stream_normal_feed(&it->normaliser, chunk.at, chunk.length);
}

static size_t text_of(
    const struct text_call *call, union in_chunks *it, size_t from, uint8_t *out, size_t capacity) {
    at_hand.calls++;
    return call->filters ? escape_stream_filter_output(&it->filter, from, out, capacity)
                         : escape_stream_normal_output(&it->normaliser, from, out, capacity);
}

static void end_it(const struct text_call *call, union in_chunks *it) {
    at_hand.calls++;
    if (call->filters)
        escape_stream_filter_end(&it->filter);
    else
        escape_stream_normal_end(&it->normaliser);
}

/* A copy at another place is the same filter or normaliser; the one before it is overwritten. */
static union in_chunks *moved(union in_chunks *it) {
    static size_t next;
    union in_chunks *copy = (void *)placed(&areas[next++ % 2], sizeof *copy);
    if (copy == it)
        return it;
    memmove(copy, it, sizeof *copy);
    memset(it, JUNK, sizeof *it);
    return copy;
}

/* A text can be read twice, from each of its bytes; past its end there is none. */
static void
check_again(const struct text_call *call, union in_chunks *it, struct bytes text, size_t capacity) {
    size_t from = below(text.length + 3), rest = from < text.length ? text.length - from : 0;
    size_t fits = rest < capacity ? rest : capacity;
    uint8_t *out = placed(&outs, capacity);
    if (text_of(call, it, from, out, capacity) != fits)
        fails("another length of a text that is read again, from", from);
    if (fits && memcmp(out, text.at + from, fits) != 0)
        fails("another text is read again, from", from);
    memset(out, JUNK, fits);
}

/* Adds what the last chunk wrote, read in room for so many bytes at a time, to what was given. */
static size_t
add_text(const struct text_call *call, union in_chunks *it, size_t capacity, size_t length) {
    size_t count, from = 0, before = length;
    do {
        uint8_t *out = placed(&outs, capacity);
        count = text_of(call, it, from, out, capacity);
        if (count > capacity || count > sizeof given - length)
            fails("more text than there is room for", count);
        memcpy(given + length, out, count);
        memset(out, JUNK, count);
        for (size_t i = 0; i < capacity; i++)
            if (out[i] != JUNK)
                fails("a byte past the text was written, in room for", capacity);
        length += count;
        from += count;
    } while (count > 0);
    if (one_in(8))
        check_again(call, it, (struct bytes){given + before, from}, below(2 * capacity));
    return length;
}

/* The end of a stream adds nothing to its normal form, and takes no memory. */
static void check_finish(union in_chunks *it) {
    requests = 0;
    at_hand.calls++;
    if (escape_stream_normal_finish(&it->normaliser) != ESCAPE_STREAM_DONE || requests != 0)
        fails("another status of an end, or a request for memory", (size_t)requests);
    if (escape_stream_normal_output(&it->normaliser, 0, placed(&outs, 1), 1) != 0)
        fails("the end added a text", 0);
}

/* Feeds the stream. The request for memory with the number `at` is refused, where that is not 0. */
static size_t
feed(const struct text_call *call, union in_chunks *it, size_t way, size_t at, uint32_t *status) {
    size_t length = 0, capacity = one_in(4) ? 1 + below(4096) : 1 + below(40);
    struct bytes stream = call->stream;
    requests = 0;
    refused = at;
    while (stream.length > 0 && *status == ESCAPE_STREAM_DONE) {
        size_t count = chunk_length(way, stream.length);
        *status = feed_it(call, it, lent((struct bytes){stream.at, count}));
        length = add_text(call, it, capacity, length);
        stream.at += count;
        stream.length -= count;
        if (one_in(8) && *status == ESCAPE_STREAM_DONE)
            it = moved(it);
    }
    refused = 0;
    if (*status != ESCAPE_STREAM_DONE &&
        feed_it(call, it, (struct bytes){stream.at, 0}) != ESCAPE_STREAM_NOT_BEGUN)
        fails("what was refused memory goes on", at);
    if (*status == ESCAPE_STREAM_DONE && !call->filters)
        check_finish(it);
    end_it(call, it);
    if (it->is_begun || blocks != 0)
        fails("what ended keeps something", (size_t)blocks);
    return length;
}

/* Begins a filter or a normaliser. One that was begun before, and fed, is ended first. */
static void begin(const struct text_call *call, union in_chunks *it) {
    memset(it, 0, sizeof *it);
    for (size_t times = one_in(8) ? 2 : 1; times > 0; times--) {
        struct bytes chunk = lent((struct bytes){call->stream.at, below(call->stream.length + 1)});
        if (begin_it(call, it) != ESCAPE_STREAM_DONE)
            fails("it was not begun", call->policy);
        if (times > 1 && feed_it(call, it, chunk) != ESCAPE_STREAM_DONE)
            fails("it was not fed", chunk.length);
    }
}

/* Checks that `text` is written of the stream of a call, in chunks. */
void check_chunks(const struct text_call *call, struct bytes text) {
    union in_chunks *it = (void *)placed(&areas[0], sizeof *it);
    size_t at = one_in(8) ? 1 + below(16) : 0, way = one_in(4) ? below(40) : 1, length;
    uint32_t status = ESCAPE_STREAM_DONE;
    at_hand.call = call->filters ? "escape_stream_filter_feed" : "escape_stream_normal_feed";
    begin(call, it);
    length = feed(call, it, way, at, &status);
    if (length > text.length || memcmp(given, text.at, length) != 0)
        fails("another text in chunks, after bytes", length);
    if (status == ESCAPE_STREAM_NO_MEMORY && at != 0)
        at_hand.refusals++;
    else if (status != ESCAPE_STREAM_DONE || length != text.length)
        fails("another status, or a text that is too short", length);
}
