/* SPDX-License-Identifier: MIT */
/*
 * Makes each call with NULL for every array that has no elements, and compares what it returns with
 * the same call where a byte is lent. Prints the calls that differ, and ends with 1 where one does.
 */
#include "escape_stream.h"
#include "escape_stream_parser.h"
#include <stdio.h>
#include <string.h>

static int failed;

static void same(const char *call, uint64_t found, uint64_t wanted)
{
    if (found != wanted) {
        fprintf(stderr, "%s: another result with NULL\n", call);
        failed = 1;
    }
}

/* The results of the calls for a whole stream, and for a string. */
static uint64_t whole(const uint8_t *bytes, uint8_t *out)
{
    size_t needed = 7, sum = 0;
    bool answer = false;

    sum += escape_stream_normal(bytes, 0, out, 0, &needed) + needed;
    sum = sum * 31 + escape_stream_is_normal(bytes, 0, &answer) + answer;
    for (uint32_t policy = 0; policy < 5; policy++)
        sum = sum * 31 + escape_stream_filter(policy, 64, bytes, 0, out, 0, &needed) + needed;
    return sum;
}

static uint64_t strings(const uint8_t *text, const int64_t *params)
{
    struct escape_stream_string_info found;
    uint64_t sum = 0;

    sum = sum * 31 + escape_stream_osc_function(text, 0, &found) + found.key;
    sum = sum * 31 + escape_stream_dcs_function(0, 0, 'q', params, 0, text, 0, &found) + found.key;
    sum = sum * 31 + escape_stream_apc_function(text, 0, &found) + found.key;
    return sum * 31 + escape_stream_string_named(text, 0, &found) + found.key;
}

static uint64_t readers(const uint8_t *text, const int64_t *params,
                        struct escape_stream_field *fields,
                        struct escape_stream_sixel_item *items, uint8_t *out)
{
    struct escape_stream_osc osc = {0};
    struct escape_stream_image image = {0};
    struct escape_stream_query query = {0};
    struct escape_stream_sixel sixel = {0};
    uint64_t sum = 0;

    sum = sum * 31 + escape_stream_read_osc(text, 0, &osc, fields, 0, out, 0) + osc.kind;
    sum = sum * 31 + escape_stream_read_kitty(text, 0, &image, fields, 0, out, 0) + image.kind;
    sum = sum * 31 + escape_stream_read_tcap(text, 0, &query, fields, 0, out, 0);
    sum = sum * 31 + query.name_count;
    sum = sum * 31 + escape_stream_read_sixel(params, 0, text, 0, &sixel, items, 0);
    return sum * 31 + sixel.item_count;
}

static uint64_t written(const struct escape_stream_field *fields, const uint8_t *text,
                        const struct escape_stream_sixel_item *items, uint8_t *out)
{
    const struct escape_stream_sixel sixel = {0};
    size_t needed = 7;
    uint64_t sum = 0;

    for (uint32_t kind = 0; kind < 64; kind++) {
        sum = sum * 31 + escape_stream_write_osc(kind, fields, 0, text, 0, out, 0, &needed);
        sum = sum * 31 + needed;
        sum = sum * 31 + escape_stream_write_kitty(kind, fields, 0, text, 0, out, 0, &needed);
        sum = sum * 31 + needed;
    }
    sum = sum * 31 + escape_stream_write_tcap(fields, 0, text, 0, out, 0, &needed) + needed;
    return sum * 31 + escape_stream_write_sixel(&sixel, items, 0, out, 0, &needed) + needed;
}

/* A chunk of no bytes, and no room for a text, in a stream that goes on. */
static uint64_t in_chunks(const uint8_t *none, uint8_t *out)
{
    static const uint8_t bytes[] = {'a', 0x1b, '[', '1', 'm', 'b'};
    const struct escape_stream_sanitizer_options options = ESCAPE_STREAM_SANITIZER_OPTIONS_INIT;
    struct escape_stream_filter_state filter = ESCAPE_STREAM_FILTER_INIT;
    struct escape_stream_sanitizer log = ESCAPE_STREAM_SANITIZER_INIT;
    struct escape_stream_html page = ESCAPE_STREAM_HTML_INIT;
    struct escape_stream_normaliser form = ESCAPE_STREAM_NORMALISER_INIT;
    uint64_t sum = 0;

    sum += escape_stream_filter_begin(&filter, ESCAPE_STREAM_POLICY_COLOR, 64);
    sum += escape_stream_sanitizer_begin(&log, &options);
    sum += escape_stream_html_begin(&page, false, false, 64);
    sum += escape_stream_normal_begin(&form, 64);
    for (size_t length = 0; length <= sizeof bytes; length += 3) {
        const uint8_t *chunk = length == 0 ? none : bytes;
        sum = sum * 31 + escape_stream_filter_feed(&filter, chunk, length);
        sum = sum * 31 + escape_stream_filter_output(&filter, 0, out, 0);
        sum = sum * 31 + escape_stream_sanitizer_feed(&log, chunk, length);
        sum = sum * 31 + escape_stream_sanitizer_output(&log, 0, out, 0);
        sum = sum * 31 + escape_stream_html_feed(&page, chunk, length);
        sum = sum * 31 + escape_stream_html_output(&page, 0, out, 0);
        sum = sum * 31 + escape_stream_normal_feed(&form, chunk, length);
        sum = sum * 31 + escape_stream_normal_output(&form, 0, out, 0);
    }
    escape_stream_filter_end(&filter);
    escape_stream_sanitizer_end(&log);
    escape_stream_html_end(&page);
    escape_stream_normal_end(&form);
    return sum;
}

/* A parser that is given no bytes between those of a stream, and one without a buffer. */
static uint64_t parsed(const uint8_t *none, uint8_t *buffer)
{
    static const char *const parts[] = {"a\x1b[1", "m\x1b]0;ti", "tle\x07\xc3", "\xa9\x1bP1q",
                                        "data\x1b\\", "\x1b_x\x1b\\"};
    static struct escape_stream_parser parser;
    static struct escape_stream_event event;
    uint64_t sum = 0;

    escape_stream_begin(&parser);
    for (size_t i = 0; i < sizeof parts / sizeof *parts; i++) {
        size_t at = 0, length = strlen(parts[i]);
        sum = sum * 31 + escape_stream_next(&parser, buffer, 0, none, 0, &event) + event.kind;
        do {
            const uint8_t *bytes = (const uint8_t *)parts[i] + at;
            at += escape_stream_next(&parser, buffer, 0, bytes, length - at, &event);
            sum = sum * 31 + event.kind;
        } while (event.kind != ESCAPE_STREAM_NONE && event.kind != ESCAPE_STREAM_FAILED);
        failed |= event.kind == ESCAPE_STREAM_FAILED;
    }
    return sum;
}

int main(void)
{
    static struct escape_stream_field fields[1];
    static struct escape_stream_sixel_item items[1];
    static const int64_t params[1];
    uint8_t byte = 'x', out = 0;

    same("calls for a stream", whole(NULL, NULL), whole(&byte, &out));
    same("names of strings", strings(NULL, NULL), strings(&byte, params));
    same("readers", readers(NULL, NULL, NULL, NULL, NULL),
         readers(&byte, params, fields, items, &out));
    same("writers", written(NULL, NULL, NULL, NULL), written(fields, &byte, items, &out));
    same("calls in chunks", in_chunks(NULL, NULL), in_chunks(&byte, &out));
    same("the parser", parsed(NULL, NULL), parsed(&byte, &out));
    return failed;
}
