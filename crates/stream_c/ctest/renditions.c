/* Writes of standard input text, line ends, tabs and renditions, and nothing else: no links. */
#include "escape_stream_parser.h"
#include <inttypes.h>
#include <stdio.h>

/* A character that two reads share, or U+FFFD for what is no UTF-8, comes by itself. */
static void put_character(uint32_t c)
{
    uint8_t out[4];
    fwrite(out, 1, escape_stream_utf8(c, out), stdout);
}

/* A rendition has the final byte m, and of bytes only ; and : beside its numbers. */
static bool is_rendition(const struct escape_stream_event *event)
{
    for (size_t i = 0; i < event->count; i++)
        if (event->entries[i].is_byte && event->entries[i].byte != ';' &&
            event->entries[i].byte != ':')
            return false;
    return event->byte == 'm' && !event->has_more;
}

/* It is spelled anew, from its numbers. */
static void put_rendition(const struct escape_stream_event *event)
{
    printf("\x1b[");
    for (size_t i = 0; i < event->count; i++)
        if (event->entries[i].is_byte)
            printf("%c", event->entries[i].byte);
        else
            printf("%" PRId64, event->entries[i].number);
    printf("m");
}

/* Writes all of a run but DEL. */
static void put_run(const uint8_t *text, size_t length)
{
    for (size_t i = 0; i < length; i++)
        if (text[i] != 0x7f)
            printf("%c", text[i]);
}

static void put(const struct escape_stream_event *event, const uint8_t *text)
{
    if (event->kind == ESCAPE_STREAM_TEXT)
        put_run(text, event->length);
    else if (event->kind == ESCAPE_STREAM_CHARACTER && event->byte != 0x7f)
        put_character(event->byte);
    else if (
        event->kind == ESCAPE_STREAM_CONTROL &&
        (event->byte == '\n' || event->byte == '\r' || event->byte == '\t'))
        put_character(event->byte);
    else if (event->kind == ESCAPE_STREAM_CSI && is_rendition(event))
        put_rendition(event);
}

int main(void)
{
    static struct escape_stream_parser parser;
    static struct escape_stream_event event;
    static uint8_t buffer[2 * 65536], bytes[4096];
    size_t length;

    escape_stream_begin(&parser);
    while ((length = fread(bytes, 1, sizeof bytes, stdin)) > 0) {
        const uint8_t *next = bytes, *end = bytes + length;
        do {
            size_t taken = escape_stream_next(
                &parser, buffer, sizeof buffer, next, (size_t)(end - next), &event);
            put(&event, escape_stream_text(&event, buffer, sizeof buffer, next));
            next += taken;
        } while (event.kind != ESCAPE_STREAM_NONE && event.kind != ESCAPE_STREAM_FAILED);
    }
    return event.kind == ESCAPE_STREAM_FAILED;
}
