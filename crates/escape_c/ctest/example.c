#include "escape_stream.h"
#include <stdio.h>
#include <string.h>

int main(void)
{
    const char *stream = "a\x1b]0;a title\x07 \x1b[1;31mred\x1b[m\n";
    const uint8_t *bytes = (const uint8_t *)stream;
    uint8_t out[256] = {0};
    size_t needed = 0;

    uint32_t status = escape_stream_filter(
        ESCAPE_STREAM_POLICY_TEXT, 4096, bytes, strlen(stream), out, sizeof out, &needed);
    if (status != ESCAPE_STREAM_DONE || needed > sizeof out)
        return 1;
    fwrite(out, 1, needed, stdout);
    return 0;
}
