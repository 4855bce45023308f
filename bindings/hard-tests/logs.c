/* SPDX-License-Identifier: MIT */
/* The sanitizer: what it writes of a stream, and its account, do not depend on the chunks; the sums
 * add up; refused memory ends it. */
#include "hard.h"
#include "escape_stream.h"

#include <string.h>

static struct area places, outs;
static uint8_t given[2][2 * TEXT_ROOM];

void begin_logs(void) {
    places = guarded(PAGE);
    outs = guarded(PAGE);
}

static struct escape_stream_sanitizer_options some_options(void) {
    struct escape_stream_sanitizer_options options = ESCAPE_STREAM_SANITIZER_OPTIONS_INIT;
    options.policy = (uint32_t)below(4);
    options.limit = one_in(4) ? below(64) : 65536;
    options.allowed = one_in(4) ? (uint32_t)below(0x10000) : 0;
    options.denied = one_in(4) ? (uint32_t)below(0x10000) : 0;
    options.links = (uint32_t)below(8);
    options.framing = (uint32_t)below(4);
    options.characters = (uint32_t)below(5);
    options.returns = (uint32_t)below(4);
    options.encoding = one_in(4) ? (uint32_t)below(16) : 0;
    options.show = one_in(4) ? (uint32_t)below(4) : 0;
    options.rows = one_in(8) ? 1 + (uint32_t)below(40) : 0;
    options.columns = one_in(4) ? 0 : 1 + (uint32_t)below(24);
    return options;
}

/* Adds what the last call wrote, and returns the length of all. */
static size_t add_text(struct escape_stream_sanitizer *it, uint8_t *to, size_t length) {
    size_t count, from = 0, capacity = 1 + below(PAGE);
    do {
        uint8_t *out = placed(&outs, capacity);
        at_hand.calls++;
        count = escape_stream_sanitizer_output(it, from, out, capacity);
        if (count > capacity || count > sizeof given[0] - length)
            fails("more text than there is room for", count);
        memcpy(to + length, out, count);
        length += count;
        from += count;
    } while (count > 0);
    return length;
}

/* Sanitizes the stream in chunks. The request for memory with the number `at` is refused, where
 * that is not 0. */
static uint32_t sanitize(
    const struct escape_stream_sanitizer_options *options, struct bytes stream, size_t way,
    size_t at, uint8_t *to, size_t *length, struct escape_stream_account *account) {
    struct escape_stream_sanitizer *it = (void *)placed(&places, sizeof *it);
    uint32_t status;
    memset(it, 0, sizeof *it);
    *length = 0;
    requests = 0;
    refused = at;
    status = escape_stream_sanitizer_begin(it, options);
    while (stream.length > 0 && status == ESCAPE_STREAM_DONE) {
        size_t count = chunk_length(way, stream.length);
        at_hand.calls++;
        status = escape_stream_sanitizer_feed(it, lent((struct bytes){stream.at, count}).at, count);
        *length = add_text(it, to, *length);
        stream.at += count;
        stream.length -= count;
    }
    if (status == ESCAPE_STREAM_DONE) {
        status = escape_stream_sanitizer_finish(it);
        *length = add_text(it, to, *length);
    }
    refused = 0;
    if (status == ESCAPE_STREAM_DONE &&
        escape_stream_sanitizer_account(it, account) != ESCAPE_STREAM_DONE)
        fails("no account", 0);
    if (status != ESCAPE_STREAM_DONE && it->is_begun)
        fails("what was refused memory goes on", at);
    escape_stream_sanitizer_end(it);
    if (it->is_begun || blocks != 0)
        fails("what ended keeps something", (size_t)blocks);
    return status;
}

void check_logs(struct bytes stream) {
    struct escape_stream_sanitizer_options options = some_options();
    struct escape_stream_account account, other;
    size_t length, count, at = 1 + below(16);
    uint32_t status;
    at_hand.call = "escape_stream_sanitizer_feed";
    if (sanitize(&options, stream, below(40), 0, given[0], &length, &account) != ESCAPE_STREAM_DONE)
        fails("another status", 0);
    if (options.encoding < 2 && account.length != stream.length)
        fails("the sums are not the length", (size_t)account.length);
    if (account.passed + account.respelled + account.shown + account.replaced + account.left_out +
            account.swallowed + account.overwritten !=
        account.length)
        fails("the length is not the sum", (size_t)account.length);
    if (sanitize(&options, stream, below(40), 0, given[1], &count, &other) != ESCAPE_STREAM_DONE ||
        count != length || memcmp(given[0], given[1], length) != 0 ||
        memcmp(&account, &other, sizeof account) != 0)
        fails("another text or account in other chunks, after bytes", count);
    status = sanitize(&options, stream, below(40), at, given[1], &count, &other);
    if (status == ESCAPE_STREAM_NO_MEMORY)
        at_hand.refusals++;
    else if (status != ESCAPE_STREAM_DONE)
        fails("another status where memory is refused", status);
    if (count > length || memcmp(given[0], given[1], count) != 0)
        fails("no beginning of the text where memory is refused", count);
}
