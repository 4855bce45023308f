#include "escape_stream_parser.h"
#include <stdio.h>

/* A character that two reads share, or U+FFFD for what is no UTF-8, comes by itself. */
static void put_character(uint32_t c)
{
    uint8_t out[4];
    fwrite(out, 1, escape_stream_utf8(c, out), stdout);
}

int main(void)
{
    static struct escape_stream_parser parser;
    static struct escape_stream_event event;
    static uint8_t buffer[2 * 65536], bytes[4096];
    size_t length;

    escape_stream_begin(&parser);
    while ((length = fread(bytes, 1, sizeof bytes, stdin)) > 0) {
        const uint8_t *next = bytes, *end = bytes + length;
        for (;;) {
            size_t taken = escape_stream_next(
                &parser, buffer, sizeof buffer, next, (size_t)(end - next), &event);
            const uint8_t *text = escape_stream_text(&event, buffer, sizeof buffer, next);
            if (event.kind == ESCAPE_STREAM_NONE)
                break;
            if (event.kind == ESCAPE_STREAM_FAILED)
                return 1;
            if (event.kind == ESCAPE_STREAM_TEXT)
                fwrite(text, 1, event.length, stdout);
            else if (event.kind == ESCAPE_STREAM_CHARACTER)
                put_character(event.byte);
            else if (event.kind == ESCAPE_STREAM_CONTROL && event.byte == '\n')
                putchar('\n');
            else if (event.kind == ESCAPE_STREAM_CSI)
                printf("<CSI %c>", (int)event.byte);
            else if (event.kind == ESCAPE_STREAM_OSC) /* its text holds no control but DEL */
                printf("<OSC %.*s>", (int)event.length, (const char *)text);
            next += taken;
        }
    }
    return 0;
}
