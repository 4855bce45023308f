/* SPDX-License-Identifier: MIT */
/*
 * Checks the filter in chunks of escape_stream.h against the call that takes a stream whole.
 *
 *     chunks
 *
 * Streams in chunks of each size give the same text, read in each capacity; each request for memory
 * is refused in turn; filters that are not begun, ended twice or begun again. Prints a line for
 * each difference; the status is 1 where there is one. Link it with
 * -Wl,--wrap=malloc,--wrap=realloc,--wrap=free, by which it counts, refuses, and sees that all was
 * given back.
 */
#define PROGRAM "chunks"
#define IN_CHUNKS escape_stream_filter_state
#define OUTPUT escape_stream_filter_output
#include "output.h"
#include "streams.h"

/* The stream in chunks of this size. Returns the status; the text is the beginning of what is
 * wanted, and where it is done all of it. */
static uint32_t feed_all(
    uint32_t policy, const uint8_t *bytes, size_t length, size_t size, size_t capacity,
    const uint8_t *wanted, size_t needed) {
    struct escape_stream_filter_state filter = {0};
    uint8_t text[MOST];
    size_t count = 0;
    uint32_t status = escape_stream_filter_begin(&filter, policy, LIMIT);
    for (size_t at = 0; status == ESCAPE_STREAM_DONE && at < length; at += size) {
        status =
            escape_stream_filter_feed(&filter, bytes + at, size < length - at ? size : length - at);
        count = append(&filter, capacity, text, count);
    }
    wants(count <= needed && memcmp(text, wanted, count) == 0, "another text", "", size);
    wants(status != ESCAPE_STREAM_DONE || count == needed, "another length", "", count);
    if (status != ESCAPE_STREAM_DONE) {
        wants(!filter.is_begun, "a filter that was refused memory goes on", "", size);
        wants(blocks == 0, "blocks are kept after memory was refused", "", (size_t)blocks);
        wants(
            escape_stream_filter_feed(&filter, bytes, length) == ESCAPE_STREAM_NOT_BEGUN,
            "it takes bytes after that", "", size);
    }
    escape_stream_filter_end(&filter);
    wants(blocks == 0, "blocks are kept after the end", "", (size_t)blocks);
    return status;
}

static void check_stream(uint32_t policy, const uint8_t *bytes, size_t length) {
    uint8_t wanted[MOST] = {0};
    size_t needed = 0;
    escape_stream_filter(policy, LIMIT, bytes, length, wanted, sizeof wanted, &needed);
    for (size_t size = 1; size <= 40; size++)
        wants(
            feed_all(policy, bytes, length, size, 1 + size % 40, wanted, needed) ==
                ESCAPE_STREAM_DONE,
            "another status", "", size);
    for (unsigned long at = 1; at < 1000; at++) {
        uint32_t status;
        requests = 0;
        refused = at;
        status = feed_all(policy, bytes, length, 7, 40, wanted, needed);
        refused = 0;
        wants(
            status == ESCAPE_STREAM_DONE || status == ESCAPE_STREAM_NO_MEMORY,
            "another status where memory is refused", "", at);
        if (requests < at)
            return;
    }
}

static void check_states(void) {
    struct escape_stream_filter_state filter = {0};
    const uint8_t bytes[] = {'a', 0x1b, ']'};
    uint8_t out[8] = {0};
    escape_stream_filter_end(&filter);
    wants(
        escape_stream_filter_feed(&filter, bytes, 3) == ESCAPE_STREAM_NOT_BEGUN,
        "fed before it began", "", 0);
    wants(escape_stream_filter_output(&filter, 0, out, 8) == 0, "a text before it began", "", 0);
    wants(
        escape_stream_filter_begin(&filter, 4, LIMIT) == ESCAPE_STREAM_UNKNOWN_POLICY,
        "an unknown policy", "", 4);
    wants(
        escape_stream_filter_feed(&filter, bytes, 3) == ESCAPE_STREAM_NOT_BEGUN,
        "fed after an unknown policy", "", 0);
    for (int i = 0; i < 3; i++) {
        wants(
            escape_stream_filter_begin(&filter, ESCAPE_STREAM_POLICY_ALL, LIMIT) ==
                ESCAPE_STREAM_DONE,
            "begun again", "", 0);
        wants(
            escape_stream_filter_output(&filter, 0, out, 8) == 0, "a text before the first chunk",
            "", 0);
        wants(escape_stream_filter_feed(&filter, bytes, 3) == ESCAPE_STREAM_DONE, "fed", "", 0);
        wants(
            escape_stream_filter_output(&filter, 0, out, 8) == 1 && out[0] == 'a', "its text", "",
            0);
        wants(escape_stream_filter_output(&filter, 0, out, 8) == 1, "its text once more", "", 0);
    }
    wants(
        escape_stream_filter_begin(&filter, 5, LIMIT) == ESCAPE_STREAM_UNKNOWN_POLICY,
        "an unknown policy", "", 5);
    wants(blocks == 0, "blocks are kept after an unknown policy", "", (size_t)blocks);
    escape_stream_filter_end(&filter);
    escape_stream_filter_end(&filter);
}

/* The end of a stream resets the state that it leaves changed; the filter goes on with the next. */
static void check_finish(void) {
    struct escape_stream_filter_state filter = {0};
    const char stream[] = "\x1b[1m\x1b]8;;http://a\x1b\\x\x1b]0;t";
    const char back[] = "\x1b[0m\x1b]8;;\x1b\\";
    uint8_t out[40] = {0};
    wants(
        escape_stream_filter_finish(&filter) == ESCAPE_STREAM_NOT_BEGUN, "ended before it began",
        "", 0);
    wants(
        escape_stream_filter_begin(&filter, ESCAPE_STREAM_POLICY_COLOR, LIMIT) ==
            ESCAPE_STREAM_DONE,
        "begun", "", 0);
    for (int i = 0; i < 3; i++) {
        wants(
            escape_stream_filter_feed(&filter, (const uint8_t *)stream, strlen(stream)) ==
                ESCAPE_STREAM_DONE,
            "fed", "", 0);
        wants(escape_stream_filter_finish(&filter) == ESCAPE_STREAM_DONE, "ended", "", 0);
        wants(
            escape_stream_filter_output(&filter, 0, out, sizeof out) == strlen(back) &&
                memcmp(out, back, strlen(back)) == 0,
            "what takes back", "", 0);
        wants(escape_stream_filter_finish(&filter) == ESCAPE_STREAM_DONE, "ended twice", "", 0);
        wants(
            escape_stream_filter_output(&filter, 0, out, sizeof out) == 0, "nothing to take back",
            "", 0);
    }
    wants(
        escape_stream_filter_feed(&filter, (const uint8_t *)stream, strlen(stream)) ==
            ESCAPE_STREAM_DONE,
        "fed", "", 0);
    requests = 0;
    refused = 1;
    uint32_t status = escape_stream_filter_finish(&filter);
    refused = 0;
    wants(
        status == ESCAPE_STREAM_DONE || (status == ESCAPE_STREAM_NO_MEMORY && !filter.is_begun),
        "a refused end", "", status);
    escape_stream_filter_end(&filter);
    wants(blocks == 0, "blocks are kept after the end", "", (size_t)blocks);
}

int main(void) {
    check_states();
    check_finish();
    for (size_t i = 0; i < sizeof STREAMS / sizeof *STREAMS; i++)
        for (uint32_t policy = 0; policy < 4; policy++)
            check_stream(policy, (const uint8_t *)STREAMS[i], strlen(STREAMS[i]));
    printf("%lu differences\n", differences);
    return differences != 0;
}
