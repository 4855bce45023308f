/* SPDX-License-Identifier: MIT */
/*
 * Writes what the native archives give of each stream of standard input: its length in four bytes,
 * the lowest first, and its bytes. Each text that is written has its length in front so, too:
 * the filter by four policies, whole and in chunks of 7 bytes with the end; the sanitizer by four
 * policies in chunks of 6, as usual and with two short rows and what does not pass shown, each with
 * its account; the normal form, whole and in chunks of 3; the page, and the page by lines with
 * styles in chunks of 5; and the events in chunks of 11, in the words of native.test.js.
 */
#include "escape_stream.h"
#include "escape_stream_parser.h"

#include <inttypes.h>
#include <stdio.h>
#include <stdlib.h>
#include <string.h>

enum { LIMIT = 1048576 };

/* A text that grows. */
static struct {
    uint8_t *bytes;
    size_t length, room;
} text;

static void *checked(void *block)
{
    if (!block)
        exit(3);
    return block;
}

static void put(const void *bytes, size_t length)
{
    if (text.length + length > text.room) {
        text.room = 2 * (text.length + length) + 4096;
        text.bytes = checked(realloc(text.bytes, text.room));
    }
    memcpy(text.bytes + text.length, bytes, length);
    text.length += length;
}

static void put_number(int64_t number)
{
    char digits[32];
    put(digits, (size_t)snprintf(digits, sizeof digits, " %" PRId64, number));
}

static void write_length(size_t length)
{
    for (int shift = 0; shift < 32; shift += 8)
        putchar((int)(length >> shift & 0xff));
}

static void write_text(void)
{
    write_length(text.length);
    fwrite(text.bytes, 1, text.length, stdout);
    text.length = 0;
}

static void check(uint32_t status)
{
    if (status != ESCAPE_STREAM_DONE)
        exit(4);
}

/* Puts the text of a filter, a page or a normaliser. */
#define PUT_TEXT(name, it)                                                                       \
    do {                                                                                         \
        static uint8_t room[4096];                                                               \
        size_t count;                                                                            \
        for (size_t from = 0;                                                                    \
             (count = escape_stream_##name##_output(it, from, room, sizeof room));               \
             from += count)                                                                      \
            put(room, count);                                                                    \
    } while (0)

#define PUT_CHUNKS(name, it, bytes, length, size)                                              \
    do {                                                                                       \
        for (size_t at = 0; at < (length); at += (size)) {                                     \
            size_t part = (length) - at < (size) ? (length) - at : (size);                     \
            check(escape_stream_##name##_feed(it, (bytes) + at, part));                        \
            PUT_TEXT(name, it);                                                                \
        }                                                                                      \
        check(escape_stream_##name##_finish(it));                                              \
        PUT_TEXT(name, it);                                                                    \
    } while (0)

#define IN_CHUNKS(name, it, bytes, length, size)                                               \
    do {                                                                                       \
        PUT_CHUNKS(name, it, bytes, length, size);                                             \
        escape_stream_##name##_end(it);                                                        \
        write_text();                                                                          \
    } while (0)

static void write_filters(const uint8_t *bytes, size_t length)
{
    for (uint32_t policy = 0; policy < 4; policy++) {
        struct escape_stream_filter_state it = {0};
        size_t needed = 0;
        uint8_t none = 0, *out;
        check(escape_stream_filter(policy, LIMIT, bytes, length, &none, 0, &needed));
        out = checked(calloc(needed + 1, 1));
        check(escape_stream_filter(policy, LIMIT, bytes, length, out, needed, &needed));
        put(out, needed);
        free(out);
        write_text();
        check(escape_stream_filter_begin(&it, policy, LIMIT));
        IN_CHUNKS(filter, &it, bytes, length, 7);
    }
}

/* A log by these options, with the numbers of its account. */
static void write_sanitized(
    const struct escape_stream_sanitizer_options *options, const uint8_t *bytes, size_t length)
{
    struct escape_stream_sanitizer it = {0};
    struct escape_stream_account account = {0};
    check(escape_stream_sanitizer_begin(&it, options));
    PUT_CHUNKS(sanitizer, &it, bytes, length, 6);
    check(escape_stream_sanitizer_account(&it, &account));
    const uint64_t fates[] = {account.passed,   account.respelled, account.shown,
                              account.replaced, account.left_out,  account.swallowed,
                              account.overwritten, account.length};
    for (size_t i = 0; i < sizeof fates / sizeof *fates; i++)
        put_number((int64_t)fates[i]);
    escape_stream_sanitizer_end(&it);
    write_text();
}

static void write_logs(const uint8_t *bytes, size_t length)
{
    for (uint32_t policy = 0; policy < 4; policy++) {
        struct escape_stream_sanitizer_options options = ESCAPE_STREAM_SANITIZER_OPTIONS_INIT;
        options.policy = policy;
        write_sanitized(&options, bytes, length);
        options.rows = 2;
        options.columns = 9;
        options.show = ESCAPE_STREAM_SHOW_ESCAPED;
        write_sanitized(&options, bytes, length);
    }
}

static void write_normals(const uint8_t *bytes, size_t length)
{
    struct escape_stream_normaliser it = {0};
    size_t needed = 0;
    uint8_t none = 0, *out;
    check(escape_stream_normal(bytes, length, &none, 0, &needed));
    out = checked(calloc(needed + 1, 1));
    check(escape_stream_normal(bytes, length, out, needed, &needed));
    put(out, needed);
    free(out);
    write_text();
    check(escape_stream_normal_begin(&it, LIMIT));
    IN_CHUNKS(normal, &it, bytes, length, 3);
}

static void write_pages(const uint8_t *bytes, size_t length)
{
    struct escape_stream_html it = {0};
    check(escape_stream_html_begin(&it, false, false, LIMIT));
    IN_CHUNKS(html, &it, bytes, length, 4096);
    check(escape_stream_html_begin(&it, true, true, LIMIT));
    IN_CHUNKS(html, &it, bytes, length, 5);
}

/* Puts the entries of a control sequence: each number, and each byte as its number less 256. */
static void put_entries(const struct escape_stream_event *event)
{
    for (size_t i = 0; i < event->count; i++)
        put_number(event->entries[i].is_byte ? event->entries[i].byte - 256
                                             : event->entries[i].number);
}

/* Puts an event as a line. Of what is cut anywhere, text and data, only the bytes. */
static void put_event(const struct escape_stream_event *event, const uint8_t *bytes)
{
    uint8_t utf8[4], byte = (uint8_t)event->byte;
    switch (event->kind) {
    case ESCAPE_STREAM_TEXT:
    case ESCAPE_STREAM_DATA:
        put(bytes, event->length);
        return;
    case ESCAPE_STREAM_CHARACTER:
        put(utf8, escape_stream_utf8(event->byte, utf8));
        return;
    case ESCAPE_STREAM_DATA_BYTE:
        put(&byte, 1);
        return;
    }
    put("\n", 1);
    put_number(event->kind);
    if (event->kind == ESCAPE_STREAM_CONTROL || event->kind == ESCAPE_STREAM_ESCAPE ||
        event->kind == ESCAPE_STREAM_CSI || event->kind == ESCAPE_STREAM_DCS)
        put_number(event->byte);
    if (event->kind == ESCAPE_STREAM_ESCAPE || event->kind == ESCAPE_STREAM_DCS)
        for (size_t i = 0; i < event->kept; i++)
            put_number(event->intermediates[i]);
    if (event->kind == ESCAPE_STREAM_CSI)
        put_entries(event);
    put(" ", 1);
    if (event->kind == ESCAPE_STREAM_OSC || event->kind == ESCAPE_STREAM_APC)
        put(bytes, event->length);
    put("\n", 1);
}

static void write_events(const uint8_t *bytes, size_t length)
{
    static struct escape_stream_parser parser;
    static struct escape_stream_event event;
    static uint8_t buffer[2 * LIMIT];
    escape_stream_begin(&parser);
    for (size_t at = 0; at < length; at += 11) {
        size_t part = length - at < 11 ? length - at : 11;
        for (size_t from = 0;;) {
            const uint8_t *next = bytes + at + from;
            from += escape_stream_next(&parser, buffer, sizeof buffer, next, part - from, &event);
            if (event.kind == ESCAPE_STREAM_NONE)
                break;
            put_event(&event, escape_stream_text(&event, buffer, sizeof buffer, next));
        }
    }
    write_text();
}

int main(void)
{
    uint8_t head[4];
    while (fread(head, 1, 4, stdin) == 4) {
        size_t length = head[0] | (size_t)head[1] << 8 | (size_t)head[2] << 16 |
                        (size_t)head[3] << 24;
        uint8_t *bytes = checked(malloc(length + 1));
        if (fread(bytes, 1, length, stdin) != length)
            return 5;
        write_filters(bytes, length);
        write_logs(bytes, length);
        write_normals(bytes, length);
        write_pages(bytes, length);
        write_events(bytes, length);
        free(bytes);
    }
    return 0;
}
