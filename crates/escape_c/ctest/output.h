/* SPDX-License-Identifier: MIT */
/*
 * The text that a call in chunks added. What includes it defines PROGRAM, its name, IN_CHUNKS, the
 * struct of what is in chunks, and OUTPUT, the call that copies its text.
 */
#include "memory.h"

enum { MOST = 4096, LIMIT = 1000 };

/* Appends the text that the last call added, read in this capacity, with guards beside it. */
static size_t append(struct IN_CHUNKS *it, size_t capacity, uint8_t *text, size_t length) {
    uint8_t area[64];
    size_t count, from = 0;
    do {
        memset(area, JUNK, sizeof area);
        count = OUTPUT(it, from, area + 8, capacity);
        wants(count <= capacity, "more than fits", "", count);
        wants(
            is_junk(area, 8) && is_junk(area + 8 + count, sizeof area - 8 - count),
            "a byte past the text was written", "", count);
        memcpy(text + length, area + 8, count);
        length += count;
        from += count;
    } while (count > 0);
    wants(OUTPUT(it, from + 5, area, 8) == 0, "a text past its end", "", from);
    wants(OUTPUT(it, 0, area, 0) == 0, "a text without room", "", from);
    return length;
}
