/* SPDX-License-Identifier: MIT */
/*
 * Checks the numbers of escape_stream_functions.h. Its argument is a file of lines, a name and its
 * number each: of every number the bytes are parsed, and give this number again, and the library
 * gives them this name. And checks values of parameters that are left out, by ECMA-48, VT510 and
 * xterm. Prints what is wrong, and ends with 1 where something is.
 */
#include "escape_stream.h"
#include "escape_stream_functions.h"
#include <inttypes.h>
#include <stdio.h>
#include <stdlib.h>
#include <string.h>

enum { ESCAPE = 0x40000000 };

static int failed;

static void fail(const char *name, const char *what)
{
    fprintf(stderr, "%s: %s\n", name, what);
    failed = 1;
}

/* The event of a sequence. */
static struct escape_stream_event parsed(const uint8_t *bytes, size_t length)
{
    static struct escape_stream_parser parser;
    static struct escape_stream_event event;
    static uint8_t buffer[64];

    escape_stream_begin(&parser);
    escape_stream_next(&parser, buffer, sizeof buffer, bytes, length, &event);
    return event;
}

/* The bytes of a number after its first digit to the base 256, and how many they are. */
static size_t digits(uint32_t number, uint8_t *out)
{
    size_t count = 0;

    for (int shift = 16; shift >= 0; shift -= 8)
        if (number >> shift > 0xff)
            out[count++] = (uint8_t)(number >> shift);
    return count;
}

/* Compares the name that the library gives. One of the header may say more: DECMC is an MC. */
static void compare(const char *name, bool is_there, const struct escape_stream_function_info *info)
{
    if (!is_there)
        fail(name, "the library has no such function");
    else if (strstr(name, info->name) == NULL)
        fail(name, info->name);
}

static void check_control(const char *name, uint32_t number)
{
    struct escape_stream_function_info info;
    struct escape_stream_event event;
    uint8_t marks[8], bytes[16] = {0x1b, '['};
    size_t count = digits(number, marks), length = 2, at = 0;
    bool has_prefix = count > 1 && marks[0] >= '<' && marks[0] <= '?';
    bool is_longer = number >> (8 * count) == 2;

    if (has_prefix)
        bytes[length++] = marks[at++];
    for (size_t i = 0; is_longer && i < 3; i++)
        bytes[length++] = (uint8_t)"1;1"[i];
    while (at < count)
        bytes[length++] = marks[at++];
    event = parsed(bytes, length);
    if (event.kind != ESCAPE_STREAM_CSI || escape_stream_function_number(&event) != number)
        fail(name, "another number");
    compare(name,
            escape_stream_function(escape_stream_prefix(&event),
                                   escape_stream_intermediate(&event, 0), (uint8_t)event.byte,
                                   event.count, &info),
            &info);
}

static void check_escape(const char *name, uint32_t number)
{
    struct escape_stream_function_info info;
    struct escape_stream_event event;
    uint8_t bytes[8] = {0x1b};
    size_t length = 1 + digits(number - ESCAPE, bytes + 1);

    /* Where an intermediate decides alone, any final byte follows. */
    if (bytes[length - 1] <= '/')
        bytes[length++] = 'C';
    event = parsed(bytes, length);
    /* Some begin a string or a sequence, and are no events. */
    if (event.kind == ESCAPE_STREAM_NONE && length == 2 && strchr("PX[]^_", bytes[1]) != NULL)
        return;
    if (event.kind != ESCAPE_STREAM_ESCAPE || escape_stream_function_number(&event) != number)
        fail(name, "another number");
    if (event.kept <= 1)
        compare(name,
                escape_stream_escape_function(event.kept > 0 ? event.intermediates[0] : 0,
                                              (uint8_t)event.byte, &info),
                &info);
}

static void check_value(const char *bytes, size_t index, int64_t wanted)
{
    struct escape_stream_event event = parsed((const uint8_t *)bytes, strlen(bytes));
    uint32_t function = escape_stream_function_number(&event);

    if (escape_stream_value(&event, function, index) != wanted)
        fail(bytes + 1, "another value");
}

static void check_values(void)
{
    const int64_t none = ESCAPE_STREAM_VALUE_NONE, last = ESCAPE_STREAM_VALUE_LAST;

    check_value("\x1b[H", 0, 1);
    check_value("\x1b[;7H", 0, 1);
    check_value("\x1b[;7H", 1, 7);
    check_value("\x1b[0;0H", 1, 1);
    check_value("\x1b[H", 2, none);
    check_value("\x1b[0A", 0, 1);
    check_value("\x1b[99999999999999999999A", 0, INT64_MAX);
    check_value("\x1b[J", 0, 0);
    check_value("\x1b[?2J", 0, 2);
    check_value("\x1b[m", 0, 0);
    check_value("\x1b[1;;4m", 1, 0);
    check_value("\x1b[4:3m", 0, 4);
    check_value("\x1b[m", 300, 0);
    check_value("\x1b[ B", 1, 100);
    check_value("\x1b[r", 0, 1);
    check_value("\x1b[;0r", 1, last);
    check_value("\x1b[5;9r", 1, 9);
    check_value("\x1b[$v", 3, last);
    check_value("\x1b[$v", 4, 1);
    check_value("\x1b[$v", 8, none);
    check_value("\x1b[65$x", 0, 65);
    check_value("\x1b[$x", 0, none);
    check_value("\x1b[65$x", 2, 1);
    check_value("\x1b[65$x", 4, last);
    check_value("\x1b[h", 0, none);
    check_value("\x1b[>n", 0, 2);
    check_value("\x1b" "c", 0, none);
}

int main(int argc, char **argv)
{
    char name[64];
    uint32_t number;
    int count = 0;
    FILE *rows = argc > 1 ? fopen(argv[1], "r") : NULL;

    if (rows == NULL)
        return 2;
    for (; fscanf(rows, "%63s %" SCNx32, name, &number) == 2; count++) {
        if (number >= ESCAPE)
            check_escape(name, number);
        else
            check_control(name, number);
    }
    fclose(rows);
    check_values();
    if (count < 300)
        fail("rows", "too few");
    return failed;
}
