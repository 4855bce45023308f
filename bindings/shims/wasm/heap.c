/* SPDX-License-Identifier: MIT */
/*
 * The heap of the WebAssembly module: what rattle_alloc, rattle_realloc and rattle_dealloc are on
 * Linux over malloc, here over the memory of the module, which it grows. A block has a class, and
 * there are four classes between two powers of two. A block that is given back is handed out again
 * to a request of its class; nothing is joined, and nothing is returned to the host. No proof
 * covers it, as none covers malloc: heap_test.c tests it.
 */
#include "heap.h"

/* 16 bytes before each block. */
struct header {
    u64 class;
    struct header *next;
};

enum { CLASSES = 240 };
static u8 *top, *end;
static struct header *free_of[CLASSES];
static u8 nothing[16];

/* The class of blocks of n bytes. */
static u64 class_of(u64 n)
{
    u64 low;
    if (n <= 64)
        return n <= 16 ? 0 : (n - 1) / 16;
    low = 63 - (u64)__builtin_clzl(n - 1); /* 2^low <= n - 1 < 2^(low + 1) */
    return 4 + (low - 6) * 4 + (((n - 1) >> (low - 2)) & 3);
}

/* How many bytes a block of a class has. */
static u64 size_of_class(u64 class)
{
    if (class < 4)
        return 16 * (class + 1);
    return ((class - 4) % 4 + 5) << (4 + (class - 4) / 4);
}

/*
 * Grows the memory, and says whether it grew. If it did not, memory.grow answers -1, or 2^32 - 1 in
 * a module that was lowered to a 32-bit memory.
 */
static _Bool grow(u64 pages)
{
    if (grow_memory(pages) >= 0xffffffffu)
        return 0;
    end += pages * PAGE;
    return 1;
}

/* Makes the memory reach so far. It grows by an eighth where it can, so that it grows seldom. */
static _Bool reach(u8 *to)
{
    u64 pages, more;
    if (to <= end)
        return 1;
    pages = ((u64)(to - end) + PAGE - 1) / PAGE;
    more = count_pages() / 8;
    return (more > pages && grow(more)) || grow(pages);
}

static u8 *take(u64 n)
{
    u64 class, size;
    struct header *found;
    if (n > MOST)
        return 0;
    class = class_of(n);
    found = free_of[class];
    if (found) {
        free_of[class] = found->next;
        return (u8 *)(found + 1);
    }
    if (!top) {
        top = first_byte();
        end = last_byte();
    }
    size = size_of_class(class) + sizeof *found;
    if (!reach(top + size))
        return 0;
    found = (struct header *)top;
    top += size;
    found->class = class;
    return (u8 *)(found + 1);
}

static void give(u8 *p)
{
    struct header *found = (struct header *)p - 1;
    found->next = free_of[found->class];
    free_of[found->class] = found;
}

/* An alignment divides 16, and each block has that of 16. */
struct tried rattle_alloc(u64 n, u64 alignment)
{
    u8 *p = take(n);
    (void)alignment;
    return (struct tried){p != 0, p ? p : nothing};
}

struct tried rattle_realloc(u8 *p, u64 kept, u64 n, u64 alignment)
{
    u64 has = size_of_class(((struct header *)p - 1)->class);
    u8 *q;
    (void)alignment;
    if (n <= has && n >= has / 2)
        return (struct tried){1, p};
    q = take(n);
    if (!q)
        return (struct tried){0, nothing};
    __builtin_memcpy(q, p, kept < n ? kept : n);
    give(p);
    return (struct tried){1, q};
}

void rattle_dealloc(u8 *p) { give(p); }

u8 *heap_take(u64 n) { return take(n); }

void heap_give(u8 *p)
{
    if (p)
        give(p);
}
