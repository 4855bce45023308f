/* SPDX-License-Identifier: MIT */
/*
 * Checks what escape_stream_parser.h says of the parameters of control sequences, of the ends of
 * strings, and of characters. Prints what is wrong, and ends with 1 where something is.
 */
#include "escape_stream_parser.h"
#include <inttypes.h>
#include <stdio.h>
#include <string.h>

enum { LEFT_OUT = -1 };

/* A sequence, its prefix, its intermediates and how many parameters it has. */
static const struct shape {
    const char *bytes;
    uint8_t prefix, intermediates[2];
    size_t count;
} SHAPES[] = {
    {"\x1b[m", 0, {0}, 0},
    {"\x1b[0m", 0, {0}, 1},
    {"\x1b[5;;7H", 0, {0}, 3},
    {"\x1b[;H", 0, {0}, 2},
    {"\x1b[4:3;38:2::1m", 0, {0}, 2},
    {"\x1b[?25;1004h", '?', {0}, 2},
    {"\x1b[>c", '>', {0}, 0},
    {"\x1b[2 q", 0, {' '}, 1},
    {"\x1b[ q", 0, {' '}, 0},
    {"\x1b[?1$p", '?', {'$'}, 1},
    {"\x1b[1;2\"'x", 0, {'"', '\''}, 2},
};

/* A sequence, and a number of it. */
static const struct number {
    const char *bytes;
    size_t index, part;
    int64_t wanted;
} NUMBERS[] = {
    {"\x1b[m", 0, 0, LEFT_OUT},
    {"\x1b[0m", 0, 0, 0},
    {"\x1b[0m", 0, 1, LEFT_OUT},
    {"\x1b[0m", 1, 0, LEFT_OUT},
    {"\x1b[5;;7H", 0, 0, 5},
    {"\x1b[5;;7H", 1, 0, LEFT_OUT},
    {"\x1b[5;;7H", 2, 0, 7},
    {"\x1b[;H", 1, 0, LEFT_OUT},
    {"\x1b[4:3;38:2::1m", 0, 1, 3},
    {"\x1b[4:3;38:2::1m", 1, 0, 38},
    {"\x1b[4:3;38:2::1m", 1, 1, 2},
    {"\x1b[4:3;38:2::1m", 1, 2, LEFT_OUT},
    {"\x1b[4:3;38:2::1m", 1, 3, 1},
    {"\x1b[?25;1004h", 0, 0, 25},
    {"\x1b[?25;1004h", 1, 0, 1004},
    {"\x1b[2 q", 0, 0, 2},
    {"\x1b[99999999999999999999A", 0, 0, INT64_MAX},
};

/* A string, and what ended it. */
static const struct end {
    const char *bytes;
    uint8_t wanted;
} ENDS[] = {
    {"\x1b]0;a\x07", 0x07},
    {"\x1b]0;a\x1b\\", 0x1b},
    {"\x1b]0;a\x18", 0x18},
    {"\x1b]0;a\x1a", 0x1a},
    {"\x1b]0;a\x9c", 0x9c},
    {"\x1b]0;a\xc2\x9c", 0x9c},
    {"\x1b_Ga=q\x1b\\", 0x1b},
    {"\x1b]0;far longer than half of the buffer\x07", 0x07},
    {"\x1b[m", 0},
    {"a", 0},
};

/* The text of a prompt's mark, a key, and its value. */
static const struct value {
    const char *text, *key, *wanted;
} VALUES[] = {
    {"133;C;cmdline_url=ls%20-l", "cmdline_url", "ls%20-l"},
    {"133;C;cmdline_url=ls%20-l", "cmdline", NULL},
    {"133;C;cmdline_url=ls%20-l", "", NULL},
    {"133;A;redraw=0;click_events=1", "redraw", "0"},
    {"133;A;redraw=0;click_events=1", "click_events", "1"},
    {"133;A;redraw=0;click_events=1", "click_event", NULL},
    {"133;D", "", NULL},
    {"133;D;", "", NULL},
    {"133;D;1", "", "1"},
    {"133;D;0;err=CANCEL;aid=7", "", "0"},
    {"133;D;0;err=CANCEL;aid=7", "err", "CANCEL"},
    {"133;D;err=CANCEL", "", NULL},
    {"133;D;1;err=", "err", ""},
    {"133;D;1;err", "err", NULL},
    {"133;D;aid=1;aid=a=b", "aid", "a=b"},
    {"aid=1;aid=2", "aid", NULL},
    {"133", "", NULL},
    {"", "", NULL},
};

static int status = 0;

static void expect(bool is_so, const char *bytes)
{
    if (!is_so) {
        printf("what is said of %s differs\n", bytes[0] == 0x1b ? bytes + 1 : bytes);
        status = 1;
    }
}

/* Returns the first event of a stream, and how many bytes were taken for it. */
static const struct escape_stream_event *event_of(const char *bytes, size_t *taken)
{
    static struct escape_stream_parser parser;
    static struct escape_stream_event event;
    static uint8_t buffer[64];

    escape_stream_begin(&parser);
    *taken = escape_stream_next(
        &parser, buffer, sizeof buffer, (const uint8_t *)bytes, strlen(bytes), &event);
    return &event;
}

/* Each character is written and read back, and bytes that are none are U+FFFD one by one. */
static void check_characters(void)
{
    static const char *const broken[] = {
        "\x80", "\xc1\xbf", "\xe0\x9f\xbf", "\xed\xa0\x80", "\xf0\x8f\xbf\xbf",
        "\xf4\x90\x80\x80", "\xf5\x80\x80\x80", "\xff", "\xc3", "\xe2\x82",
        "\xf0\x9f\x98", "\xc3(", "\xe2\x82(",
    };
    uint8_t out[4];
    uint32_t found = 0;

    for (uint32_t c = 0; c <= 0x10ffff; c++) {
        size_t length = escape_stream_utf8(c, out);
        bool is_none = c >= 0xd800 && c < 0xe000;
        if (escape_stream_character(out, length, &found) != length ||
            found != (is_none ? 0xfffd : c))
            expect(false, "\x1b a character");
    }
    for (size_t i = 0; i < sizeof broken / sizeof *broken; i++) {
        const uint8_t *bytes = (const uint8_t *)broken[i];
        expect(escape_stream_character(bytes, strlen(broken[i]), &found) == 1 && found == 0xfffd,
               "\x1b broken characters");
    }
    expect(escape_stream_character(out, 0, &found) == 0, "\x1b no bytes");
}

int main(void)
{
    size_t taken;

    check_characters();

    for (size_t i = 0; i < sizeof SHAPES / sizeof *SHAPES; i++) {
        const struct shape *it = &SHAPES[i];
        const struct escape_stream_event *event = event_of(it->bytes, &taken);
        expect(event->kind == ESCAPE_STREAM_CSI, it->bytes);
        expect(escape_stream_prefix(event) == it->prefix, it->bytes);
        expect(escape_stream_intermediate(event, 0) == it->intermediates[0], it->bytes);
        expect(escape_stream_intermediate(event, 1) == it->intermediates[1], it->bytes);
        expect(escape_stream_intermediate(event, 2) == 0, it->bytes);
        expect(escape_stream_parameter_count(event) == it->count, it->bytes);
    }
    for (size_t i = 0; i < sizeof NUMBERS / sizeof *NUMBERS; i++) {
        const struct number *it = &NUMBERS[i];
        const struct escape_stream_event *event = event_of(it->bytes, &taken);
        int64_t number = escape_stream_parameter(event, it->index, it->part, LEFT_OUT);
        expect(number == it->wanted, it->bytes);
    }
    for (size_t i = 0; i < sizeof ENDS / sizeof *ENDS; i++) {
        const struct escape_stream_event *event = event_of(ENDS[i].bytes, &taken);
        const uint8_t *bytes = (const uint8_t *)ENDS[i].bytes;
        uint8_t end = escape_stream_string_end(event, bytes, taken);
        expect(end == ENDS[i].wanted, ENDS[i].bytes);
    }
    for (size_t i = 0; i < sizeof VALUES / sizeof *VALUES; i++) {
        const struct value *it = &VALUES[i];
        const uint8_t *found;
        size_t length = 0;

        found = escape_stream_prompt_value(
            (const uint8_t *)it->text, strlen(it->text), it->key, &length);
        expect((found == NULL) == (it->wanted == NULL), it->text);
        if (found != NULL && it->wanted != NULL)
            expect(length == strlen(it->wanted) && memcmp(found, it->wanted, length) == 0,
                   it->text);
    }
    return status;
}
