#include "escape_stream.h"
#include "escape_stream_parser.h"
#include <stdio.h>

/* The function of a control sequence. None has two intermediates. */
static bool function_of(
    const struct escape_stream_event *event, struct escape_stream_function_info *out)
{
    uint8_t prefix = escape_stream_prefix(event), final = (uint8_t)event->byte;
    uint8_t intermediate = escape_stream_intermediate(event, 0);
    bool is_whole = !event->has_more && escape_stream_intermediate(event, 1) == 0;

    return is_whole && escape_stream_function(prefix, intermediate, final, event->count, out);
}

int main(void)
{
    static struct escape_stream_parser parser;
    static struct escape_stream_event event;
    static uint8_t buffer[2 * 65536], bytes[4096];
    struct escape_stream_function_info function;
    size_t length;

    escape_stream_begin(&parser);
    while ((length = fread(bytes, 1, sizeof bytes, stdin)) > 0) {
        size_t at = 0;
        do {
            at += escape_stream_next(&parser, buffer, sizeof buffer, bytes + at, length - at,
                                     &event);
            if (event.kind == ESCAPE_STREAM_CSI && function_of(&event, &function))
                printf("%s: %s%s\n", function.name, function.phrase,
                       function.is_answered ? ", answered" : "");
        } while (event.kind != ESCAPE_STREAM_NONE && event.kind != ESCAPE_STREAM_FAILED);
    }
    return 0;
}
