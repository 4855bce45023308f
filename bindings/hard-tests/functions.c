/* SPDX-License-Identifier: MIT */
/* The control functions by name, over all bytes: a row that is there has a name, and of one that is
 * not all is 0. */
#include "hard.h"
#include "escape_stream.h"

#include <string.h>

static struct area rows;

static void check_row(
    bool is_there, bool may_be_there, const struct escape_stream_function_info *row,
    size_t number) {
    static const struct escape_stream_function_info none;
    at_hand.calls++;
    if (!is_there && memcmp(row, &none, sizeof none) != 0)
        fails("a row that is not there is not 0", number);
    if (!is_there)
        return;
    if (!may_be_there)
        fails("bytes that no sequence has were found", number);
    if (!row->name[0] || !row->phrase[0])
        fails("a row without a name or words", number);
    if (!memchr(row->name, 0, sizeof row->name) || !memchr(row->phrase, 0, sizeof row->phrase))
        fails("a name or words without an end", number);
}

static bool is_intermediate(unsigned byte) {
    return byte == 0 || (byte >= ' ' && byte <= '/');
}

static bool is_prefix(unsigned byte) {
    return byte == 0 || (byte >= '<' && byte <= '?');
}

/* The control sequences of a prefix and an intermediate. One of them alone is found in the place of
 * the other too. */
static void check_finals(unsigned prefix, unsigned intermediate) {
    bool is_alone = prefix == 0 || intermediate == 0;
    unsigned one = prefix | intermediate;
    bool may_be_there = is_alone ? is_prefix(one) || is_intermediate(one)
                                 : is_prefix(prefix) && is_intermediate(intermediate);
    for (unsigned final = 0; final < 256; final++) {
        struct escape_stream_function_info *row = (void *)placed(&rows, sizeof *row);
        size_t count = one_in(2) ? 0 : one_in(2) ? 1 : (size_t)next_number();
        memset(row, JUNK, sizeof *row);
        check_row(
            escape_stream_function(
                (uint8_t)prefix, (uint8_t)intermediate, (uint8_t) final, count, row),
            may_be_there && final >= '@' && final <= '~', row,
            (size_t)prefix << 16 | intermediate << 8 | final);
    }
}

/* The escape sequences of an intermediate, or of none. The first byte alone says what designates a
 * set. */
static void check_escapes(unsigned intermediate) {
    bool may_be_there = intermediate != 0 && is_intermediate(intermediate);
    for (unsigned final = 0; final < 256; final++) {
        struct escape_stream_function_info *row = (void *)placed(&rows, sizeof *row);
        memset(row, JUNK, sizeof *row);
        check_row(
            escape_stream_escape_function((uint8_t)intermediate, (uint8_t) final, row),
            may_be_there || (intermediate == 0 && final >= ' ' && final <= '~'), row,
            intermediate << 8 | final);
    }
}

static void check_control(unsigned code) {
    struct escape_stream_function_info *row = (void *)placed(&rows, sizeof *row);
    bool is_control = code < ' ' || code == 0x7f, is_there;
    memset(row, JUNK, sizeof *row);
    is_there = escape_stream_control_function((uint8_t)code, row);
    check_row(is_there, is_control, row, code);
    if (is_there != is_control)
        fails("a control that has no name", code);
}

void check_functions(void) {
    rows = guarded(PAGE);
    at_hand.call = "escape_stream_function";
    for (unsigned prefix = 0; prefix < 256; prefix++)
        for (unsigned intermediate = 0; intermediate < 256; intermediate++)
            check_finals(prefix, intermediate);
    at_hand.call = "escape_stream_escape_function";
    for (unsigned intermediate = 0; intermediate < 256; intermediate++)
        check_escapes(intermediate);
    at_hand.call = "escape_stream_control_function";
    for (unsigned code = 0; code < 256; code++)
        check_control(code);
}
