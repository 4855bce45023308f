/* SPDX-License-Identifier: MIT */
/*
 * The heap of proved code, over malloc, realloc and free. An archive has it as a member of its own:
 * a program that defines these three functions itself brings an allocator of its own, and the
 * member is left out. malloc aligns each block to 16, which is the most that is asked for.
 */
#include "shims.h"
#include <stdlib.h>

/* The pointee of a refused request, since the pointer may be compared. */
static uint8_t nothing;

static struct tried answer(uint8_t *block)
{
    return (struct tried){block != NULL, block ? block : &nothing};
}

/* A block of no bytes is asked for as one of some, so that NULL always is a refusal. */
struct tried rattle_alloc(size_t size, size_t align) { return answer(malloc(size ? size : align)); }

struct tried rattle_realloc(uint8_t *block, size_t kept, size_t size, size_t align)
{
    (void)kept;
    return answer(realloc(block, size ? size : align));
}

void rattle_dealloc(uint8_t *block) { free(block); }
