/* SPDX-License-Identifier: MIT */
/*
 * Checks the normal form in chunks of escape_stream.h against the call that takes a stream whole.
 *
 *     normal
 *
 * Streams in chunks of each size give the same text, read in each capacity; each request for memory
 * is refused in turn; a normaliser that is not begun, ended twice or begun again, and that of
 * another call. Prints a line for each difference; the status is 1 where there is one. Link it with
 * -Wl,--wrap=malloc,--wrap=realloc,--wrap=free, by which it counts, refuses, and sees that all was
 * given back.
 */
#define PROGRAM "normal"
#define IN_CHUNKS escape_stream_normaliser
#define OUTPUT escape_stream_normal_output
#include "output.h"
#include "streams.h"

/* The stream in chunks of this size. Returns the status; the text is the beginning of what is
 * wanted, and where it is done all of it. */
static uint32_t
feed_all(const char *stream, size_t size, size_t capacity, const uint8_t *wanted, size_t needed) {
    struct escape_stream_normaliser it = {0};
    const uint8_t *bytes = (const uint8_t *)stream;
    uint8_t text[MOST];
    size_t count = 0, length = strlen(stream);
    uint32_t status = escape_stream_normal_begin(&it, LIMIT);
    for (size_t at = 0; status == ESCAPE_STREAM_DONE && at < length; at += size) {
        status =
            escape_stream_normal_feed(&it, bytes + at, size < length - at ? size : length - at);
        count = append(&it, capacity, text, count);
    }
    wants(count <= needed && memcmp(text, wanted, count) == 0, "another text", stream, size);
    if (status == ESCAPE_STREAM_DONE) {
        wants(count == needed, "another length", stream, count);
        wants(escape_stream_normal_finish(&it) == ESCAPE_STREAM_DONE, "another end", stream, size);
        wants(append(&it, capacity, text, 0) == 0, "a text of the end", stream, size);
    } else {
        wants(!it.is_begun, "a normaliser that was refused memory goes on", stream, size);
        wants(blocks == 0, "blocks are kept after memory was refused", stream, (size_t)blocks);
        wants(
            escape_stream_normal_feed(&it, bytes, length) == ESCAPE_STREAM_NOT_BEGUN,
            "it takes bytes after that", stream, size);
    }
    escape_stream_normal_end(&it);
    wants(blocks == 0, "blocks are kept after the end", stream, (size_t)blocks);
    return status;
}

static void check_stream(const char *stream) {
    uint8_t wanted[MOST] = {0};
    size_t needed = 0;
    escape_stream_normal((const uint8_t *)stream, strlen(stream), wanted, sizeof wanted, &needed);
    for (size_t size = 1; size <= 40; size++)
        wants(
            feed_all(stream, size, 1 + size % 40, wanted, needed) == ESCAPE_STREAM_DONE,
            "another status", stream, size);
    for (unsigned long at = 1; at < 1000; at++) {
        uint32_t status;
        requests = 0;
        refused = at;
        status = feed_all(stream, 7, 40, wanted, needed);
        refused = 0;
        wants(
            status == ESCAPE_STREAM_DONE || status == ESCAPE_STREAM_NO_MEMORY,
            "another status where memory is refused", stream, at);
        if (requests < at)
            return;
    }
}

static void check_states(void) {
    struct escape_stream_normaliser it = {0};
    const uint8_t bytes[] = {0xff, 0x1b, ']'};
    uint8_t out[8] = {0};
    escape_stream_normal_end(&it);
    wants(
        escape_stream_normal_feed(&it, bytes, 3) == ESCAPE_STREAM_NOT_BEGUN, "fed before it began",
        "", 0);
    wants(
        escape_stream_normal_finish(&it) == ESCAPE_STREAM_NOT_BEGUN, "ended before it began", "",
        0);
    wants(escape_stream_normal_output(&it, 0, out, 8) == 0, "a text before it began", "", 0);
    for (int i = 0; i < 3; i++) {
        wants(escape_stream_normal_begin(&it, LIMIT) == ESCAPE_STREAM_DONE, "begun again", "", 0);
        wants(
            escape_stream_normal_output(&it, 0, out, 8) == 0, "a text before the first chunk", "",
            0);
        wants(escape_stream_normal_feed(&it, bytes, 3) == ESCAPE_STREAM_DONE, "fed", "", 0);
        wants(
            escape_stream_normal_output(&it, 0, out, 8) == 3 && memcmp(out, "\xef\xbf\xbd", 3) == 0,
            "its text", "", 0);
        wants(
            escape_stream_normal_output(&it, 2, out, 8) == 1 && out[0] == 0xbd,
            "its text once more", "", 0);
    }
    escape_stream_normal_end(&it);
    escape_stream_normal_end(&it);
    wants(!it.is_begun && blocks == 0, "blocks are kept after the end", "", (size_t)blocks);
}

/* The end of a stream drops what is unfinished, and a terminator that comes next ends no string of
 * the stream before. */
static void check_finish(void) {
    struct escape_stream_normaliser it = {0};
    uint8_t out[40] = {0};
    wants(escape_stream_normal_begin(&it, 3) == ESCAPE_STREAM_DONE, "begun", "", 0);
    wants(
        escape_stream_normal_feed(&it, (const uint8_t *)"\x1b]2;t\x1b\\", 7) == ESCAPE_STREAM_DONE,
        "fed", "", 0);
    wants(escape_stream_normal_output(&it, 0, out, sizeof out) == 7, "the title", "", 0);
    for (int i = 0; i < 2; i++)
        wants(escape_stream_normal_finish(&it) == ESCAPE_STREAM_DONE, "ended", "", 0);
    wants(escape_stream_normal_output(&it, 0, out, sizeof out) == 0, "a text of the end", "", 0);
    wants(
        escape_stream_normal_feed(
            &it,
            (const uint8_t *)"\x1b\\\x1b]2;ab\x07"
                             "c\x1b[",
            12) == ESCAPE_STREAM_DONE,
        "fed", "", 0);
    wants(
        escape_stream_normal_output(&it, 0, out, sizeof out) == 3 && memcmp(out, "\x1b\\c", 3) == 0,
        "past the limit", "", 0);
    escape_stream_normal_end(&it);
}

/* An object that the calls of a filter began is no normaliser. It is given back. */
static void check_others(void) {
    union {
        struct escape_stream_filter_state filter;
        struct escape_stream_html page;
        struct escape_stream_normaliser normaliser;
    } it = {{0}};
    const uint8_t byte = 'a';
    wants(
        escape_stream_filter_begin(&it.filter, ESCAPE_STREAM_POLICY_ALL, LIMIT) ==
            ESCAPE_STREAM_DONE,
        "begun", "", 0);
    wants(
        escape_stream_normal_feed(&it.normaliser, &byte, 1) == ESCAPE_STREAM_NOT_BEGUN,
        "a filter is fed", "", 0);
    wants(!it.filter.is_begun && blocks == 0, "a filter is kept", "", (size_t)blocks);
    wants(
        escape_stream_html_begin(&it.page, false, false, LIMIT) == ESCAPE_STREAM_DONE, "begun", "",
        0);
    wants(
        escape_stream_normal_finish(&it.normaliser) == ESCAPE_STREAM_NOT_BEGUN, "a page is ended",
        "", 0);
    wants(!it.page.is_begun && blocks == 0, "a page is kept", "", (size_t)blocks);
    wants(escape_stream_normal_begin(&it.normaliser, LIMIT) == ESCAPE_STREAM_DONE, "begun", "", 0);
    wants(
        escape_stream_html_feed(&it.page, &byte, 1) == ESCAPE_STREAM_NOT_BEGUN,
        "a normaliser is fed as a page", "", 0);
    wants(!it.normaliser.is_begun && blocks == 0, "a normaliser is kept", "", (size_t)blocks);
}

int main(void) {
    check_states();
    check_finish();
    check_others();
    for (size_t i = 0; i < sizeof STREAMS / sizeof *STREAMS; i++)
        check_stream(STREAMS[i]);
    printf("%lu differences\n", differences);
    return differences != 0;
}
