#include "escape_stream.h"
#include <stdio.h>

int main(void)
{
    struct escape_stream_sanitizer log = {0};
    struct escape_stream_sanitizer_options options = ESCAPE_STREAM_SANITIZER_OPTIONS_INIT;
    struct escape_stream_account account = {0};
    static uint8_t bytes[4096], out[4096];
    size_t length, count;

    if (escape_stream_sanitizer_begin(&log, &options) != ESCAPE_STREAM_DONE)
        return 1;
    do {
        length = fread(bytes, 1, sizeof bytes, stdin);
        if ((length > 0 ? escape_stream_sanitizer_feed(&log, bytes, length)
                        : escape_stream_sanitizer_finish(&log)) != ESCAPE_STREAM_DONE)
            return 1;
        for (size_t at = 0; (count = escape_stream_sanitizer_output(&log, at, out, sizeof out)) > 0;
             at += count)
            fwrite(out, 1, count, stdout);
    } while (length > 0);
    escape_stream_sanitizer_account(&log, &account);
    fprintf(stderr, "%d of %d bytes passed\n", (int)account.passed, (int)account.length);
    escape_stream_sanitizer_end(&log);
    return 0;
}
