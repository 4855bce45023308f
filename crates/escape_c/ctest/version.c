/* SPDX-License-Identifier: MIT */
/* Prints the version of the library that it runs with, once that filters. */
#include "escape_stream.h"
#include <stdio.h>
#include <string.h>

int main(void)
{
    const uint8_t bytes[] = {'a', 0x1b, ']', '0', ';', 't', 7, 'b'};
    uint8_t out[8] = {0};
    size_t needed = 0;

    if (escape_stream_filter(ESCAPE_STREAM_POLICY_TEXT, 99, bytes, sizeof bytes, out, sizeof out,
                             &needed) != ESCAPE_STREAM_DONE ||
        needed != 2 || memcmp(out, "ab", 2) != 0)
        return 1;
    return puts(escape_stream_version()) < 0;
}
