/* SPDX-License-Identifier: MIT */
/*
 * Checks escape_stream_parser.h: the events of streams in chunks of each size, and those of each
 * stream by itself.
 *
 * Prints a line for each difference; the status is 1 where there is one.
 */
#include "escape_stream_parser.h"

#include <stdio.h>
#include <stdlib.h>
#include <string.h>

enum { GUARD = 32, MOST_CHUNK = 40, NOISES = 2000, NOISE_CHUNKS = 60, ROOM = 1 << 16 };

static unsigned long differences;

/* The events, in a form in which a run is the same as its characters or bytes by
 * themselves. */
struct log {
    char at[ROOM];
    size_t length;
};

static void add(struct log *log, const void *bytes, size_t length) {
    if (length > sizeof log->at - log->length)
        abort();
    memcpy(log->at + log->length, bytes, length);
    log->length += length;
}

static void add_number(struct log *log, long long number) {
    char digits[32];
    int length = snprintf(digits, sizeof digits, " %lld", number);
    add(log, digits, (size_t)length);
}

static void add_character(struct log *log, uint32_t c) {
    add(log, "'", 1);
    add_number(log, c);
}

/* The characters of well-formed UTF-8. Anything else is a fault. */
static void add_run(struct log *log, const uint8_t *bytes, size_t length) {
    size_t i = 0;
    while (i < length) {
        uint8_t b = bytes[i];
        size_t more = b < 0x80 ? 0 : b < 0xe0 ? 1 : b < 0xf0 ? 2 : 3;
        uint32_t c = b < 0x80 ? b : b & (0x3fu >> more);
        if ((b >= 0x80 && b < 0xc2) || b > 0xf4 || more >= length - i)
            abort();
        for (size_t k = 1; k <= more; k++) {
            if ((bytes[i + k] & 0xc0) != 0x80)
                abort();
            c = c << 6 | (bytes[i + k] & 0x3f);
        }
        if (c < 0x20 || (c >= 0x80 && c < 0xa0) || (more == 2 && c < 0x800) ||
            (c >= 0xd800 && c < 0xe000) || (more == 3 && c < 0x10000) || c > 0x10ffff)
            abort();
        add_character(log, c);
        i += 1 + more;
    }
}

static void
add_event(struct log *log, const struct escape_stream_event *event, const uint8_t *text) {
    static const char *const NAMES[] = {"none", "", "", "control", "escape", "csi",    "osc",
                                        "dcs",  "", "", "end",     "apc",    "FAILED", "limit"};
    switch (event->kind) {
    case ESCAPE_STREAM_TEXT:
        add_run(log, text, event->length);
        return;
    case ESCAPE_STREAM_CHARACTER:
        add_character(log, event->byte);
        return;
    case ESCAPE_STREAM_DATA:
        for (size_t i = 0; i < event->length; i++) {
            add(log, ".", 1);
            add_number(log, text[i]);
        }
        return;
    case ESCAPE_STREAM_DATA_BYTE:
        add(log, ".", 1);
        add_number(log, event->byte);
        return;
    }
    add(log, "\n", 1);
    add(log, NAMES[event->kind], strlen(NAMES[event->kind]));
    if (event->kind != ESCAPE_STREAM_OSC && event->kind != ESCAPE_STREAM_APC &&
        event->kind != ESCAPE_STREAM_DCS_END && event->kind != ESCAPE_STREAM_LIMIT)
        add_number(log, event->byte);
    if (event->kind == ESCAPE_STREAM_ESCAPE || event->kind == ESCAPE_STREAM_DCS) {
        add(log, " [", 2);
        add(log, event->intermediates, event->kept);
        add(log, "]", 1);
    }
    if (event->kind == ESCAPE_STREAM_CSI)
        for (size_t i = 0; i < event->count; i++) {
            const struct escape_stream_entry *entry = &event->entries[i];
            if (entry->is_byte) {
                add(log, " ", 1);
                add(log, &entry->byte, 1);
            } else {
                add_number(log, entry->number);
            }
        }
    if (event->kind == ESCAPE_STREAM_OSC || event->kind == ESCAPE_STREAM_APC ||
        event->kind == ESCAPE_STREAM_DCS) {
        add(log, " <", 2);
        add(log, text, event->length);
        add(log, ">", 1);
    }
    if (event->has_more)
        add(log, " and more", 9);
    add(log, "\n", 1);
}

/* The places and counts that the header promises. */
static void
check_event(const struct escape_stream_event *event, size_t room, size_t taken, size_t length) {
    bool is_run = event->kind == ESCAPE_STREAM_TEXT || event->kind == ESCAPE_STREAM_DATA;
    if (taken > length || event->kept > 2 || event->count > 256 ||
        event->kind > ESCAPE_STREAM_LIMIT)
        abort();
    if (is_run ? event->start > taken || event->length > taken - event->start
               : event->length > room)
        abort();
}

/* Feeds a stream in chunks, each in a block of its own, over a buffer with guards round it. */
static void feed(const uint8_t *stream, size_t length, size_t size, size_t room, struct log *log) {
    struct escape_stream_parser parser;
    struct escape_stream_event event;
    uint8_t *block = malloc(GUARD + room + GUARD), *buffer = block + GUARD;
    if (block == NULL)
        abort();
    memset(block, 0xa5, GUARD + room + GUARD);
    memset(&parser, 0, sizeof parser);
    memset(&event, 0, sizeof event);
    escape_stream_begin(&parser);
    for (size_t from = 0; from < length; from += size) {
        size_t chunk = length - from < size ? length - from : size, at = 0;
        uint8_t *bytes = malloc(chunk);
        if (bytes == NULL)
            abort();
        memcpy(bytes, stream + from, chunk);
        for (;;) {
            size_t taken =
                escape_stream_next(&parser, buffer, room, bytes + at, chunk - at, &event);
            check_event(&event, room - room / 2, taken, chunk - at);
            if (event.kind == ESCAPE_STREAM_NONE) {
                if (taken != chunk - at)
                    abort();
                break;
            }
            add_event(log, &event, escape_stream_text(&event, buffer, room, bytes + at));
            if (event.kind == ESCAPE_STREAM_FAILED) {
                fprintf(stderr, "failed\n");
                differences++;
                break;
            }
            at += taken;
        }
        free(bytes);
    }
    for (size_t i = 0; i < GUARD; i++)
        if (block[i] != 0xa5 || block[GUARD + room + i] != 0xa5)
            abort();
    free(block);
}

/* The same events in chunks of each size. */
static void compare(const uint8_t *stream, size_t length, size_t room) {
    static struct log whole, cut;
    whole.length = 0;
    feed(stream, length, length, room, &whole);
    for (size_t size = 1; size <= MOST_CHUNK; size++) {
        cut.length = 0;
        feed(stream, length, size, room, &cut);
        if (cut.length != whole.length || memcmp(cut.at, whole.at, cut.length) != 0) {
            fprintf(
                stderr, "in chunks of %zu, with room for %zu: %.*s\nand not: %.*s\n", size, room,
                (int)cut.length, cut.at, (int)whole.length, whole.at);
            differences++;
            return;
        }
    }
}

struct row {
    const char *stream, *events;
};

static const struct row ROWS[] = {
    {"ab", "' 97' 98"},
    {"\xc3\xa9\xff\n", "' 233' 65533\ncontrol 10\n"},
    {"\x1b[1;31m", "\ncsi 109 1 ; 31\n"},
    {"\x1b[?25l\x9b>c", "\ncsi 108 ? 25\n\ncsi 99 >\n"},
    {"\x1b[99999999999999999999A", "\ncsi 65 9223372036854775807\n"},
    {"\x1b(B\x1b$%&x", "\nescape 66 [(]\n\nescape 120 [$%] and more\n"},
    {"\x1b]0;a title\x07", "\nosc <0;a title>\n"},
    {"\x1b]0;a\x18\x1b]\x1b\\", "\nosc <0;a>\n\ncontrol 24\n\nosc <>\n\nescape 92 []\n"},
    {"\x1bP1;2$qm\n\x7f\x1b\\", "\ndcs 113 [$] <1;2>\n. 109. 10\nend\n\nescape 92 []\n"},
    {"\x1b_Gi=1\x9c", "\napc <Gi=1>\n"},
    {"\x1bXno\x1b^no\x9cyes", "' 121' 101' 115"},
    {"\x1b]0123456789012345678901234567890123\x07x", "\nlimit\n' 120"},
    {"\x1b]0123456789012345678901234567890123\x18x", "\nlimit\n\ncontrol 24\n' 120"},
    {"\x9d""0123456789012345678901234567890123\x9d""b\x9c", "\nlimit\n\nosc <b>\n"},
    {"\x1b]012345678901234567890123456789\xe2\x82\x1b[m", "\nlimit\n\ncsi 109\n"},
    {"\x1b_0123456789012345678901234567890123\x9fG\x1b\\", "\nlimit\n\napc <G>\n\nescape 92 []\n"},
    {"\x1bP012345678901234567890123456789012qdata\x1b\\", "\nlimit\n\nescape 92 []\n"},
    {"\x1bP012345678901234567890123456789012:qdata\x1b\\", "\nescape 92 []\n"},
    {"\x1b]0123456789012345678901234567890123", ""},
    {"\xe2\x82\x1b", "' 65533"},
    {"", ""},
};

static const char *const CHUNKS[] = {
    "\x1b",
    "[",
    "]",
    "P",
    "_",
    "X",
    "^",
    "\\",
    "\x9b",
    "\x9d",
    "\x90",
    "\x9f",
    "\x9c",
    "\xc2",
    "\xc3\xa9",
    "\xe2\x82\xac",
    "\xf0\x9f\x98\x80",
    "\xe2",
    "\x82",
    "\xff",
    "\x07",
    "\x18",
    "\n",
    "\x7f",
    "a",
    "m",
    "q",
    "text",
    "0",
    "12",
    "9999999999",
    ";",
    ":",
    "?",
    " ",
    "$",
    "\x1b]0;",
    "\x1bP1q",
    "\x1b_G",
    "\x1b[3",
};

static uint64_t state;

static uint64_t next_number(void) {
    uint64_t mixed = state += UINT64_C(0x9e3779b97f4a7c15);
    mixed = (mixed ^ mixed >> 30) * UINT64_C(0xbf58476d1ce4e5b9);
    mixed = (mixed ^ mixed >> 27) * UINT64_C(0x94d049bb133111eb);
    return mixed ^ mixed >> 31;
}

/* The first and the last character of each length, and what is none. */
static void check_utf8(void) {
    static const struct { uint32_t c; const char *utf8;
    } ROWS_OF_UTF8[] = {
        {0x7f, "\x7f"},
        {0x80, "\xc2\x80"},
        {0x7ff, "\xdf\xbf"},
        {0x800, "\xe0\xa0\x80"},
        {0xd7ff, "\xed\x9f\xbf"},
        {0xd800, "\xef\xbf\xbd"},
        {0xdfff, "\xef\xbf\xbd"},
        {0xe000, "\xee\x80\x80"},
        {0xffff, "\xef\xbf\xbf"},
        {0x10000, "\xf0\x90\x80\x80"},
        {0x10ffff, "\xf4\x8f\xbf\xbf"},
        {0x110000, "\xef\xbf\xbd"},
        {UINT32_MAX, "\xef\xbf\xbd"},
    };
    for (size_t i = 0; i < sizeof ROWS_OF_UTF8 / sizeof ROWS_OF_UTF8[0]; i++) {
        uint8_t out[4];
        size_t length = escape_stream_utf8(ROWS_OF_UTF8[i].c, out);
        if (length != strlen(ROWS_OF_UTF8[i].utf8) ||
            memcmp(out, ROWS_OF_UTF8[i].utf8, length) != 0) {
            fprintf(stderr, "the UTF-8 of %x\n", (unsigned)ROWS_OF_UTF8[i].c);
            differences++;
        }
    }
}

int main(void) {
    check_utf8();
    static const size_t ROOMS[] = {0, 1, 2, 7, 64, 4096};
    for (size_t i = 0; i < sizeof ROWS / sizeof ROWS[0]; i++) {
        static struct log log;
        const uint8_t *stream = (const uint8_t *)ROWS[i].stream;
        size_t length = strlen(ROWS[i].stream);
        log.length = 0;
        feed(stream, length, length + 1, 64, &log);
        if (log.length != strlen(ROWS[i].events) ||
            memcmp(log.at, ROWS[i].events, log.length) != 0) {
            fprintf(stderr, "row %zu: %.*s\n", i, (int)log.length, log.at);
            differences++;
        }
        compare(stream, length, 64);
    }
    for (int i = 0; i < NOISES; i++) {
        uint8_t noise[NOISE_CHUNKS * 16];
        size_t length = 0;
        for (int k = 0; k < NOISE_CHUNKS; k++) {
            const char *chunk = CHUNKS[next_number() % (sizeof CHUNKS / sizeof CHUNKS[0])];
            memcpy(noise + length, chunk, strlen(chunk));
            length += strlen(chunk);
        }
        compare(noise, length, ROOMS[next_number() % (sizeof ROOMS / sizeof ROOMS[0])]);
    }
    return differences != 0;
}
