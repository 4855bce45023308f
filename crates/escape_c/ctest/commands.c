#include "escape_stream.h"
#include "escape_stream_parser.h"
#include <stdio.h>

/* Says what some commands are. A title in an event holds no control but DEL. */
static void print_command(const uint8_t *text, size_t length)
{
    struct escape_stream_osc osc = {0};
    struct escape_stream_field fields[16] = {{0}};
    uint8_t out[1024] = {0};

    if (escape_stream_read_osc(text, length, &osc, fields, 16, out, sizeof out) !=
        ESCAPE_STREAM_DONE)
        return;
    switch (osc.kind) {
    case ESCAPE_STREAM_OSC_SET_ICON_NAME_AND_WINDOW_TITLE:
    case ESCAPE_STREAM_OSC_SET_WINDOW_TITLE: /* one field, a text */
        if (osc.text_length <= sizeof out)
            printf("title: %.*s\n", (int)fields[0].length, (const char *)out);
        break;
    case ESCAPE_STREAM_OSC_PROMPT_COMMAND_STATUS: /* first a number */
        printf("status: %lld\n", (long long)fields[0].number);
        break;
    case ESCAPE_STREAM_OSC_SET_SELECTION:
        printf("%zu bytes for the clipboard\n", fields[1].length);
        break;
    }
}

int main(void)
{
    static struct escape_stream_parser parser;
    static struct escape_stream_event event;
    static uint8_t buffer[2 * 65536], bytes[4096];
    size_t length;

    escape_stream_begin(&parser);
    while ((length = fread(bytes, 1, sizeof bytes, stdin)) > 0) {
        size_t at = 0;
        do {
            const uint8_t *text;
            size_t taken = escape_stream_next(&parser, buffer, sizeof buffer, bytes + at,
                                              length - at, &event);
            text = escape_stream_text(&event, buffer, sizeof buffer, bytes + at);
            if (event.kind == ESCAPE_STREAM_OSC)
                print_command(text, event.length);
            at += taken;
        } while (event.kind != ESCAPE_STREAM_NONE && event.kind != ESCAPE_STREAM_FAILED);
    }
    return 0;
}
