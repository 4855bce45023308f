/* SPDX-License-Identifier: MIT */
/* Memory between two pages that nobody may touch. */
#define _GNU_SOURCE
#include "hard.h"

#include <stdio.h>
#include <stdlib.h>
#include <string.h>
#include <sys/mman.h>
#include <unistd.h>

static _Noreturn void stops(const char *what) {
    perror(what);
    exit(2);
}

/* `size` bytes of pages, with the page before them and that after them out of reach. */
static uint8_t *between_guards(size_t size, int protection, int flags, int file) {
    uint8_t *all = mmap(NULL, PAGE + size + PAGE, PROT_NONE, MAP_PRIVATE | MAP_ANONYMOUS, -1, 0);
    if (all == MAP_FAILED || sysconf(_SC_PAGESIZE) != PAGE)
        stops("a page");
    if (mmap(all + PAGE, size, protection, flags | MAP_FIXED, file, 0) == MAP_FAILED)
        stops("mmap");
    return all + PAGE;
}

/* An area of `size` bytes, of whole pages. */
struct area guarded(size_t size) {
    struct area area = {NULL, size};
    area.at = between_guards(size, PROT_READ | PROT_WRITE, MAP_PRIVATE | MAP_ANONYMOUS, -1);
    memset(area.at, JUNK, size);
    return area;
}

/* Areas of `size` bytes each, one after another, with a page that nobody may touch after each. */
uint8_t *guarded_row(size_t count, size_t size) {
    uint8_t *all =
        between_guards(count * (size + PAGE), PROT_NONE, MAP_PRIVATE | MAP_ANONYMOUS, -1);
    for (size_t i = 0; i < count; i++)
        if (mprotect(all + i * (size + PAGE), size, PROT_READ | PROT_WRITE) != 0)
            stops("mprotect");
    return all;
}

/* `length` bytes at the end of an area, or at its beginning. */
uint8_t *placed(const struct area *area, size_t length) {
    if (length > area->size)
        fails("more bytes than the area has", length);
    return area->at + (one_in(4) ? 0 : area->size - length);
}

/* The bytes as a caller lends them: beside a guard, in memory that the library cannot write. */
struct bytes lent(struct bytes bytes) {
    static uint8_t *written, *read;
    size_t from = one_in(4) ? 0 : TEXT_ROOM - bytes.length;
    if (!read) {
        int file = memfd_create("lent", 0);
        if (file < 0 || ftruncate(file, TEXT_ROOM) != 0)
            stops("memfd_create");
        written = between_guards(TEXT_ROOM, PROT_READ | PROT_WRITE, MAP_SHARED, file);
        read = between_guards(TEXT_ROOM, PROT_READ, MAP_SHARED, file);
        close(file);
    }
    if (bytes.length > TEXT_ROOM)
        fails("more bytes than can be lent", bytes.length);
    if (bytes.length)
        memcpy(written + from, bytes.at, bytes.length);
    return (struct bytes){read + from, bytes.length};
}
