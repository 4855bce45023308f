/* SPDX-License-Identifier: MIT */
/*
 * The memory that the library asks for: each block ends at a page that nobody may touch. A block is
 * aligned to each power of two that divides its size, and no better, which is what escape_stream.h
 * asks for. A block that is moved or given back is overwritten. The one request whose number is
 * `refused` is refused. With PLAIN_ALLOCATOR, for a tool that watches the blocks itself, it is the
 * allocator of the C library, which refuses none.
 */
#include "hard.h"

#include <string.h>

unsigned long requests, refused;
long blocks;

#ifdef PLAIN_ALLOCATOR
void begin_blocks(void) {
}
#else

enum { SLOTS = 256, SLOT = 65536 };

void *__real_malloc(size_t size);
void __real_free(void *block);
void *__wrap_malloc(size_t size);
void *__wrap_realloc(void *block, size_t size);
void __wrap_free(void *block);

/* The slots lie one after another, each with a page that nobody may touch after it. */
enum { STRIDE = SLOT + PAGE };
static uint8_t *first;
static struct {
    bool is_used;
    size_t length;
} slots[SLOTS];

/* A block that no slot holds has its length before it. */
enum { HEAD = 16 };

void begin_blocks(void) {
    first = guarded_row(SLOTS, SLOT);
}

static void *of_slot(size_t size) {
    static size_t next;
    for (size_t i = 0; size <= SLOT && i < SLOTS; i++) {
        size_t at = next++ % SLOTS;
        if (slots[at].is_used)
            continue;
        slots[at].is_used = true;
        slots[at].length = size;
        return first + at * STRIDE + SLOT - size;
    }
    return NULL;
}

/* Whether a block is in a slot, and then in which. */
static bool is_in_slot(const void *block, size_t *at) {
    uintptr_t from = (uintptr_t)first, address = (uintptr_t)block;
    *at = (address - from) / STRIDE;
    return address >= from && *at < SLOTS;
}

static void *of_none(size_t size) {
    uint8_t *block = __real_malloc(HEAD + size);
    if (!block)
        fails("there is no memory for this program", size);
    memcpy(block, &size, sizeof size);
    return block + HEAD;
}

void *__wrap_malloc(size_t size) {
    void *block;
    if (++requests == refused)
        return NULL;
    block = of_slot(size);
    if (!block)
        block = of_none(size);
    blocks++;
    memset(block, JUNK, size);
    return block;
}

static size_t length_of(const uint8_t *block) {
    size_t at, length;
    if (is_in_slot(block, &at)) {
        if (!slots[at].is_used || block != first + at * STRIDE + SLOT - slots[at].length)
            fails("a block that was not given, or was given back", at);
        return slots[at].length;
    }
    memcpy(&length, block - HEAD, sizeof length);
    return length;
}

void __wrap_free(void *block) {
    size_t at;
    if (!block)
        return;
    memset(block, JUNK, length_of(block));
    blocks--;
    if (is_in_slot(block, &at))
        slots[at].is_used = false;
    else
        __real_free((uint8_t *)block - HEAD);
}

void *__wrap_realloc(void *block, size_t size) {
    size_t length = block ? length_of(block) : 0;
    void *moved = __wrap_malloc(size);
    if (moved && block) {
        memcpy(moved, block, length < size ? length : size);
        __wrap_free(block);
    }
    return moved;
}
#endif
