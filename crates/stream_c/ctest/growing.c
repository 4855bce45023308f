/* SPDX-License-Identifier: MIT */
/*
 * Parses a stream with strings of many lengths in a buffer that grows with them, chunk by chunk,
 * and compares its events with those of one chunk in a buffer that is long enough. Prints what is
 * wrong, and ends with 1 where something is.
 */
#include "escape_stream_parser.h"
#include <stdio.h>
#include <stdlib.h>
#include <string.h>

enum { FIRST = 256, MOST = 1 << 23, LENGTH = 4000000 };

/* The events of a stream: how many strings there are, their lengths, and a sum over their bytes. */
struct seen {
    size_t strings, length, failed;
    uint64_t sum;
};

static uint8_t stream[LENGTH];
static size_t end;

static void put(const char *text, size_t times)
{
    for (size_t length = strlen(text); times > 0; times--, end += length)
        memcpy(stream + end, text, length);
}

/* Strings of text, of characters that are broken off, and of parameters; text is between them. */
static void fill(void)
{
    for (size_t times = 1; times < 1000000; times *= 7) {
        put("text\x1b]52;c;", 1);
        put("Q", times);
        put("\x07\x1b]0;", 1);
        put("\xe2\x82;", times / 4);
        put("\x1b\\\x1b_G", 1);
        put("a=q,", times / 8);
        put("\x1b\\\x1bP", 1);
        put("1;", times / 8);
        put("qdata\x1b\\\x1bX", 1);
        put("passed over", times / 8);
        put("\x1b\\", 1);
    }
}

static void see(struct seen *seen, const struct escape_stream_event *event, const uint8_t *text)
{
    seen->failed += event->kind == ESCAPE_STREAM_FAILED || event->kind == ESCAPE_STREAM_LIMIT;
    if (event->kind != ESCAPE_STREAM_OSC && event->kind != ESCAPE_STREAM_APC &&
        event->kind != ESCAPE_STREAM_DCS)
        return;
    seen->strings++;
    seen->length += event->length;
    for (size_t i = 0; i < event->length; i++)
        seen->sum = seen->sum * 31 + text[i];
}

/* Parses the stream in chunks of `step` bytes, in a block of `size` bytes that grows. */
static struct seen parsed(size_t step, size_t size)
{
    static struct escape_stream_parser parser;
    static struct escape_stream_event event;
    struct seen seen = {0};
    uint8_t *buffer = calloc(size, 1);

    escape_stream_begin(&parser);
    for (size_t at = 0, taken; at < end && buffer != NULL; at += taken) {
        size_t length = end - at < step ? end - at : step, done = 0;
        while (escape_stream_room(&parser, size) < length && size < MOST) {
            uint8_t *larger = realloc(buffer, 2 * size);
            if (larger == NULL)
                abort();
            memset(larger + size, 0, size);
            buffer = larger;
            size *= 2;
        }
        do {
            const uint8_t *bytes = stream + at + done;
            done += escape_stream_next(&parser, buffer, size, bytes, length - done, &event);
            see(&seen, &event, escape_stream_text(&event, buffer, size, bytes));
        } while (event.kind != ESCAPE_STREAM_NONE && event.kind != ESCAPE_STREAM_FAILED);
        taken = length;
    }
    free(buffer);
    return seen;
}

int main(void)
{
    const size_t steps[] = {1, 7, 61, 4096, 100000};

    fill();
    struct seen whole = parsed(end, MOST);
    if (whole.failed != 0 || whole.strings != 4 * 8) {
        fprintf(stderr, "%zu strings, %zu failed\n", whole.strings, whole.failed);
        return 1;
    }
    for (size_t i = 0; i < sizeof steps / sizeof *steps; i++) {
        struct seen seen = parsed(steps[i], FIRST);
        if (memcmp(&seen, &whole, sizeof seen) != 0) {
            fprintf(stderr, "in chunks of %zu: %zu strings of %zu bytes, %zu failed\n", steps[i],
                    seen.strings, seen.length, seen.failed);
            return 1;
        }
    }
    return 0;
}
