// SPDX-License-Identifier: MIT
// The time that the parser for C takes for a stream: `next FILE CHUNK PASSES`, as vte.rs says, by
// escape_stream_next with a buffer of 64 KiB. It adds up the same parts of an event as the program
// over vte: the count of parameters and the final byte of a control sequence.
#include "escape_stream_parser.h"
#include <stdio.h>
#include <stdlib.h>
#include <string.h>

struct count {
    unsigned long events, sum;
};

// Adds up a text, eight bytes at once.
static unsigned long sum_of(const uint8_t *text, size_t length)
{
    uint64_t sum = 0, word;
    for (; length >= sizeof word; text += sizeof word, length -= sizeof word) {
        memcpy(&word, text, sizeof word);
        sum ^= word;
    }
    for (; length > 0; text++, length--)
        sum ^= *text;
    return sum;
}

static void add(struct count *count, const struct escape_stream_event *event, const uint8_t *text)
{
    count->events++;
    if (event->kind == ESCAPE_STREAM_TEXT)
        count->sum ^= sum_of(text, event->length);
    else
        count->sum += event->kind + event->byte + event->count + event->length;
}

static void feed(
    struct escape_stream_parser *parser, const uint8_t *bytes, size_t length, struct count *count) {
    static struct escape_stream_event event;
    static uint8_t buffer[65536];
    for (size_t at = 0;;) {
        size_t taken =
            escape_stream_next(parser, buffer, sizeof buffer, bytes + at, length - at, &event);
        if (event.kind == ESCAPE_STREAM_NONE || event.kind == ESCAPE_STREAM_FAILED)
            return;
        add(count, &event, escape_stream_text(&event, buffer, sizeof buffer, bytes + at));
        at += taken;
    }
}

int main(int argc, char **argv)
{
    if (argc != 4)
        return 2;
    FILE *file = fopen(argv[1], "rb");
    if (!file || fseek(file, 0, SEEK_END))
        return 1;
    size_t size = ftell(file), chunk = strtoul(argv[2], NULL, 10);
    uint8_t *data = malloc(size + 1);
    rewind(file);
    if (!data || fread(data, 1, size, file) != size)
        return 1;
    static struct escape_stream_parser parser;
    struct count count = {0};
    for (int pass = atoi(argv[3]); pass > 0; pass--) {
        escape_stream_begin(&parser);
        for (size_t at = 0; at < size; at += chunk)
            feed(&parser, data + at, size - at < chunk ? size - at : chunk, &count);
    }
    printf("%lu %lu\n", count.events, count.sum);
    return 0;
}
