#include "escape_stream.h"
#include <stdio.h>

int main(void)
{
    struct escape_stream_filter_state filter = {0};
    static uint8_t bytes[4096], out[4096];
    size_t length, count;

    if (escape_stream_filter_begin(&filter, ESCAPE_STREAM_POLICY_COLOR, 1048576) !=
        ESCAPE_STREAM_DONE)
        return 1;
    while ((length = fread(bytes, 1, sizeof bytes, stdin)) > 0) {
        if (escape_stream_filter_feed(&filter, bytes, length) != ESCAPE_STREAM_DONE)
            return 1;
        for (size_t from = 0;
             (count = escape_stream_filter_output(&filter, from, out, sizeof out)) > 0;
             from += count)
            fwrite(out, 1, count, stdout);
    }
    if (escape_stream_filter_finish(&filter) == ESCAPE_STREAM_DONE) {
        count = escape_stream_filter_output(&filter, 0, out, sizeof out);
        fwrite(out, 1, count, stdout);
    }
    escape_stream_filter_end(&filter);
    return 0;
}
