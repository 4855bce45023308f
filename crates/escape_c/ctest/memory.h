/* SPDX-License-Identifier: MIT */
/* Memory that is counted and refused, and differences that are counted. What includes it defines
 * PROGRAM, its name. */
#include "escape_stream.h"

#include <stdio.h>
#include <stdlib.h>
#include <string.h>

enum { JUNK = 0xa5 };

static unsigned long refused, requests, differences;
static long blocks;

void *__real_malloc(size_t size);
void *__real_realloc(void *block, size_t size);
void __real_free(void *block);
void *__wrap_malloc(size_t size);
void *__wrap_realloc(void *block, size_t size);
void __wrap_free(void *block);

void *__wrap_malloc(size_t size) {
    void *block = ++requests == refused ? NULL : __real_malloc(size);
    blocks += block != NULL;
    return block;
}

void *__wrap_realloc(void *block, size_t size) {
    void *moved = ++requests == refused ? NULL : __real_realloc(block, size);
    blocks += !block && moved;
    return moved;
}

void __wrap_free(void *block) {
    blocks -= block != NULL;
    __real_free(block);
}

static void wants(bool holds, const char *what, const char *text, size_t number) {
    if (holds)
        return;
    fprintf(stderr, "%s: %s (%s, %zu)\n", PROGRAM, what, text, number);
    differences++;
}

static bool is_junk(const void *at, size_t length) {
    for (size_t i = 0; i < length; i++)
        if (((const uint8_t *)at)[i] != JUNK)
            return false;
    return true;
}
