/* SPDX-License-Identifier: MIT */
/* The calls of heap.c for the library and the host, and the memory that it is over. */
#ifndef HEAP_H
#define HEAP_H

typedef unsigned long u64;
typedef unsigned char u8;

/* A request for memory: whether it was granted, and the block, else any place. */
struct tried {
    _Bool ok;
    u8 *p;
};

#define PAGE 65536ul
#define MOST (1ul << 31) /* the longest block */

/*
 * In the module these have the names by which the compiled library asks for its imports, so that
 * the linker gives it these functions, and the module imports nothing.
 */
#ifdef __wasm__
#define CALLED(name) __asm__("import " name " from env")
#else
#define CALLED(name)
#endif

struct tried rattle_alloc(u64 n, u64 alignment) CALLED("rattle_alloc");
struct tried rattle_realloc(u8 *p, u64 kept, u64 n, u64 alignment) CALLED("rattle_realloc");
void rattle_dealloc(u8 *p) CALLED("rattle_dealloc");

/* A block for the host, or none where there is no memory; and its return, also of none. */
u8 *heap_take(u64 n);
void heap_give(u8 *p);

/* The memory: its first byte that is free at the start, its end at the start, and how it grows. */
#ifdef __wasm__
extern u8 __heap_base;
static inline u8 *first_byte(void) { return (u8 *)(((u64)&__heap_base + 15) & ~15ul); }
static inline u64 count_pages(void) { return __builtin_wasm_memory_size(0); }
static inline u64 grow_memory(u64 pages) { return __builtin_wasm_memory_grow(0, pages); }
static inline u8 *last_byte(void) { return (u8 *)(count_pages() * PAGE); }
#else
u8 *first_byte(void);
u8 *last_byte(void);
u64 count_pages(void);
u64 grow_memory(u64 pages);
#endif

#endif
