/* SPDX-License-Identifier: MIT */
/* A stream for each seed, of chunks that matter to a parser. */
#include "hard.h"
#include "escape_stream_parser.h"

#include <string.h>

static uint8_t stream[STREAM_ROOM];
static size_t length;

static const char *const CHUNKS[] = {
    /* what opens and closes, in seven bits, raw and in UTF-8 */
    "\x1b", "\x1b[", "\x1b]", "\x1bP", "\x1b_", "\x1bX", "\x1b^", "\x1b\\", "\x1b(B", "\x1b#8", "\x1b $%&'x", "\033c",
    "\x9b", "\x9d", "\x90", "\x9f", "\x98", "\x9e", "\x9c", "\x85", "\x84", "\x8e",
    "\xc2\x9b", "\xc2\x9d", "\xc2\x90", "\xc2\x9f", "\xc2\x98", "\xc2\x9e", "\xc2\x9c", "\xc2\x85",
    "\x07", "\x18", "\x1a", "\n", "\r", "\t", "\x7f", "\x0e", "\x05",
    /* UTF-8, whole and broken */
    "\xc2", "\xe2", "\xe2\x82", "\xf0\x9f", "\xf0\x9f\x98", "\x80", "\xbf", "\xff", "\xc0\xaf", "\xed\xa0\x80",
    "\xf4\x90\x80\x80", "\xe0\x80\x9b", "\xef\xbf\xbd", "\xef\xbf\xbf", "\xc3\xa9", "\xe2\x82\xac", "\xf0\x9f\x98\x80",
    /* parameters, intermediates and final bytes */
    "0", "9", "12", "38:2::1:2:3", "38;5;196", "9223372036854775807", "9223372036854775808", "00000000000000000000007",
    ";", ":", "?", ">", "=", "<", ";;", " ", "$", "!", "#", "\"", "/",
    "m", "H", "J", "h", "l", "q", "u", "c", "n", "t", "|", "~", "@", "\\", "text", "a b", "ab\n",
    /* sequences, whole and begun */
    "\x1b]0;", "\x1b]2;title\x07", "\x1b]8;;http://example.com/\x1b\\", "\x1b]52;c;YWJj\x07", "\x1b]1337;",
    "\x1b]133;A\x07", "\x1b]10;?\x07", "\x1bP1$q", "\x1bP+q544e", "\x1bPq#0;2;0;0;0!12~-", "\x1bP1;2;3",
    "\x1b_Ga=T,f=24;AAAA", "\x1b_G", "\x1b[?25", "\x1b[3", "\x1b[1;31m", "\x1b[2J", "\x1b[6n", "\x1b[?1049h", "\x1b[>c",
    "\x1b[5 q", "\x1b[!p",
};

static void add(const void *bytes, size_t count) {
    size_t fits = count < sizeof stream - length ? count : sizeof stream - length;
    memcpy(stream + length, bytes, fits);
    length += fits;
}

/* A run of one byte, mostly short, and else about as long as a buffer. */
static void add_run(void) {
    static const size_t LENGTHS[] = {63,  64,   65,   127,  128,  129,  255,  256, 257,
                                     511, 1000, 1023, 1024, 1025, 2048, 4095, 4096, 4097};
    static const uint8_t BYTES[] = {'a', ' ', '0', ';', ':', 0x80, 0xc2, 0xff, '\n', 0x1b, 0, '~', '#'};
    uint8_t byte = BYTES[below(sizeof BYTES)];
    size_t count = one_in(32) ? LENGTHS[below(sizeof LENGTHS / sizeof *LENGTHS)] : 1 + below(40);
    for (; count > 0; count--)
        add(&byte, 1);
}

static void add_bytes(uint8_t first, size_t choices, size_t most) {
    for (size_t count = 1 + below(most); count > 0; count--) {
        uint8_t byte = (uint8_t)(first + below(choices));
        add(&byte, 1);
    }
}

/* A character, of any length in UTF-8, or all but the last byte of it. */
static void add_character(void) {
    static const uint32_t ENDS[] = {0x80, 0x800, 0x10000, 0x110000};
    uint8_t bytes[4];
    size_t count = escape_stream_utf8((uint32_t)below(ENDS[below(4)]), bytes);
    add(bytes, one_in(4) ? count - 1 : count);
}

/* A control sequence as programs write them, with some parameters. */
static void add_control_sequence(void) {
    add(one_in(4) ? "\xc2\x9b" : "\x1b[", 2);
    if (one_in(4))
        add_bytes('<', 4, 1);
    for (size_t count = below(one_in(32) ? 300 : 6); count > 0; count--) {
        add_bytes('0', 10, 3);
        add(one_in(4) ? ":" : ";", count > 1);
    }
    if (one_in(8))
        add_bytes(' ', 16, 2);
    add_bytes('@', 63, 1);
}

/* A stream of the tables, or what is between two places of it. */
static void add_of_table(bool is_whole) {
    struct bytes row = table_stream();
    size_t from = is_whole ? 0 : below(row.length + 1);
    size_t to = is_whole ? row.length : from + below(row.length - from + 1);
    add(row.at + from, to - from);
}

static void add_chunk(void) {
    const char *chunk = CHUNKS[below(sizeof CHUNKS / sizeof *CHUNKS)];
    switch (below(16)) {
    case 0:
        add_run();
        return;
    case 1:
        add_bytes('0', 10, 20);
        return;
    case 2:
        add_bytes(0, 256, 8);
        return;
    case 3:
        add_bytes(' ', 95, 12);
        return;
    case 4:
        add_character();
        return;
    case 5:
        add_control_sequence();
        return;
    case 6:
        add_of_table(one_in(4));
        return;
    default:
        add(chunk, strlen(chunk));
    }
}

/* The stream of a seed. */
struct bytes random_stream(uint64_t seed) {
    begin_numbers(seed);
    length = 0;
    if (one_in(32))
        add_of_table(true);
    else
        for (size_t count = below(one_in(256) ? 400 : 16); count > 0; count--)
            add_chunk();
    return (struct bytes){stream, length};
}
