/* SPDX-License-Identifier: MIT */
/* A program that brings an allocator of its own: the library asks it, and not malloc. */
#include "escape_stream.h"
#include "../../../bindings/shims/shims.h"
#include <stdlib.h>
#include <string.h>

static size_t asked, alive;
static uint8_t nothing;

static struct tried answer(uint8_t *block)
{
    return (struct tried){block != NULL, block ? block : &nothing};
}

struct tried rattle_alloc(size_t size, size_t align)
{
    asked++, alive++;
    return answer(malloc(size ? size : align));
}

struct tried rattle_realloc(uint8_t *block, size_t kept, size_t size, size_t align)
{
    (void)kept;
    return answer(realloc(block, size ? size : align));
}

void rattle_dealloc(uint8_t *block)
{
    alive--;
    free(block);
}

int main(void)
{
    const uint8_t bytes[] = {'a', 0x1b, ']', '0', ';', 't', 7, 'b'};
    uint8_t out[8] = {0};
    size_t needed = 0;

    if (escape_stream_filter(ESCAPE_STREAM_POLICY_TEXT, 99, bytes, sizeof bytes, out, sizeof out,
                             &needed) != ESCAPE_STREAM_DONE)
        return 1;
    return needed != 2 || memcmp(out, "ab", 2) != 0 || asked == 0 || alive != 0;
}
