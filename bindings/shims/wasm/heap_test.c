/* SPDX-License-Identifier: MIT */
/*
 * Tests heap.c over a memory that grows to 64 MiB: that blocks are aligned and do not overlap, that
 * a block keeps what is in it, that a request is refused where there is no room, and granted again
 * once blocks were given back.
 */
#include "heap.h"

#include <stdio.h>
#include <stdlib.h>
#include <string.h>

enum { LIMIT = 1024, BLOCKS = 4000, ROUNDS = 400000 };
static _Alignas(65536) u8 memory[LIMIT * PAGE];
static u64 pages = 2;

u8 *first_byte(void) { return memory + 4096; }
u8 *last_byte(void) { return memory + pages * PAGE; }
u64 count_pages(void) { return pages; }

/* A refusal is that of a lowered module half of the time. */
u64 grow_memory(u64 more)
{
    static int refused;
    if (more > LIMIT - pages)
        return refused++ & 1 ? 0xffffffffu : ~0ul;
    pages += more;
    return pages - more;
}

static struct block {
    u8 *p;
    u64 length;
    u8 mark;
} blocks[BLOCKS];
static u64 granted, refused;

static void check(int holds, const char *what)
{
    if (!holds) {
        printf("heap_test: %s\n", what);
        exit(1);
    }
}

static u64 some(u64 below)
{
    static u64 state = 4711;
    state = state * 6364136223846793005u + 1442695040888963407u;
    return (state >> 33) % below;
}

/* A length: mostly short, now and then up to some MiB. */
static u64 some_length(void) { return some(200) ? some(1ul << some(14)) : some(3ul << 20); }

static void check_marks(const struct block *it, u64 length)
{
    for (u64 i = 0; i < length; i += length > 64 ? 61 : 1)
        check(it->p[i] == it->mark, "a block does not hold what was written there");
}

static void note(struct block *it, struct tried got, u64 length, u64 kept)
{
    if (!got.ok) {
        refused++;
        return;
    }
    check((u64)got.p % 16 == 0, "a block is not aligned");
    check(got.p >= memory + 4096 && got.p + length <= memory + pages * PAGE, "a block lies outside");
    *it = (struct block){got.p, length, it->mark};
    check_marks(it, kept);
    it->mark = (u8)some(256);
    memset(it->p, it->mark, length);
    granted++;
}

static void give_all(void)
{
    for (u64 i = 0; i < BLOCKS; i++) {
        if (blocks[i].p)
            rattle_dealloc(blocks[i].p);
        blocks[i] = (struct block){0, 0, 0};
    }
}

int main(void)
{
    for (u64 i = 0; i < ROUNDS; i++) {
        struct block *it = &blocks[some(BLOCKS)];
        u64 length = some_length();
        if (!it->p) {
            note(it, rattle_alloc(length, 16), length, 0);
        } else if (some(2)) {
            u64 kept = it->length < length ? it->length : length;
            check_marks(it, it->length);
            note(it, rattle_realloc(it->p, it->length, length, 16), length, kept);
        } else {
            check_marks(it, it->length);
            rattle_dealloc(it->p);
            *it = (struct block){0, 0, 0};
        }
    }
    check(granted > ROUNDS / 4 && refused > 0, "too few requests were granted or refused");
    give_all();
    check(!heap_take(MOST + 1), "a block longer than the longest was granted");
    check(!heap_take(64ul << 20), "a block as long as the memory was granted");
    heap_give(0);
    heap_give(heap_take(100));
    printf("%lu granted, %lu refused\n", granted, refused);
    return 0;
}
