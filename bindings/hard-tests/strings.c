/* SPDX-License-Identifier: MIT */
/* The control strings by name, over all numbers up to 65,536, all headers and random texts: a row
 * that is there has a name, is found by it and by its place, and of one that is not all is 0. */
#include "hard.h"
#include "escape_stream.h"

#include <stdio.h>
#include <string.h>

enum { TEXTS = 100000, LONGEST = 24 };

static struct area rows;

static struct escape_stream_string_info *room(void) {
    struct escape_stream_string_info *row = (void *)placed(&rows, sizeof *row);
    memset(row, JUNK, sizeof *row);
    return row;
}

static void check_string(
    bool is_there, const struct escape_stream_string_info *row, size_t number) {
    static const struct escape_stream_string_info none;
    struct escape_stream_string_info first = *row, *other;
    struct bytes name = {(const uint8_t *)first.name, 0};
    at_hand.calls++;
    if (!is_there && memcmp(row, &none, sizeof none) != 0)
        fails("a row that is not there is not 0", number);
    if (!is_there)
        return;
    if (!memchr(row->name, 0, sizeof row->name) || !memchr(row->phrase, 0, sizeof row->phrase))
        fails("a name or words without an end", number);
    if (!row->name[0] || !row->phrase[0])
        fails("a row without a name or words", number);
    name.length = strlen(first.name);
    name = lent(name);
    other = room();
    if (!escape_stream_string_named(name.at, name.length, other) ||
        memcmp(other, &first, sizeof first) != 0)
        fails("a row that its name does not find", number);
    other = room();
    if (!escape_stream_string_row(first.row, other) || memcmp(other, &first, sizeof first) != 0)
        fails("a row that its place does not find", number);
}

/* A text of random bytes, of which many are digits, letters and what separates parts. */
static struct bytes text_of(uint8_t *at) {
    static const char common[] = "0123456789;=,:aABCDGPdfm?$|~";
    size_t length = below(LONGEST + 1);
    for (size_t i = 0; i < length; i++)
        at[i] = one_in(8) ? (uint8_t)next_number() : (uint8_t)common[below(sizeof common - 1)];
    return lent((struct bytes){at, length});
}

static void check_numbers(void) {
    at_hand.call = "escape_stream_osc_function";
    for (size_t number = 0; number <= 65536; number++) {
        char digits[32];
        int length = snprintf(digits, sizeof digits, one_in(2) ? "%zu" : "%zu;a=b", number);
        struct bytes text = lent((struct bytes){(const uint8_t *)digits, (size_t)length});
        struct escape_stream_string_info *row = room();
        check_string(escape_stream_osc_function(text.at, text.length, row), row, number);
    }
}

static void check_headers(void) {
    at_hand.call = "escape_stream_dcs_function";
    for (size_t number = 0; number < 1 << 16; number++) {
        uint8_t bytes[LONGEST], prefix = one_in(2) ? 0 : (uint8_t)next_number();
        const int64_t params[2] = {(int64_t)below(4), (int64_t)next_number()};
        struct bytes data = text_of(bytes);
        struct escape_stream_string_info *row = room();
        check_string(
            escape_stream_dcs_function(
                prefix, (uint8_t)(number >> 8), (uint8_t)number, params, below(3), data.at,
                data.length, row),
            row, number);
    }
}

static void check_texts_of_strings(void) {
    for (size_t number = 0; number < TEXTS; number++) {
        uint8_t bytes[LONGEST];
        struct bytes text = text_of(bytes);
        struct escape_stream_string_info *row = room();
        at_hand.call = "escape_stream_osc_function";
        check_string(escape_stream_osc_function(text.at, text.length, row), row, number);
        text = text_of(bytes);
        row = room();
        at_hand.call = "escape_stream_apc_function";
        check_string(escape_stream_apc_function(text.at, text.length, row), row, number);
        text = text_of(bytes);
        row = room();
        at_hand.call = "escape_stream_string_named";
        check_string(escape_stream_string_named(text.at, text.length, row), row, number);
        row = room();
        at_hand.call = "escape_stream_string_row";
        size_t place = one_in(2) ? below(300) : (size_t)next_number();
        check_string(escape_stream_string_row(place, row), row, number);
    }
}

void check_strings(void) {
    rows = guarded(PAGE);
    check_numbers();
    check_headers();
    check_texts_of_strings();
}
