/* SPDX-License-Identifier: MIT */
/*
 * shims.h - the functions in C that proved code calls, with the types that it calls them by
 *
 * Each meets the contract that the toolchain's crates `libc` and `os` state of it. The
 * toolchain has them for x86-64, in liblibc_c.a and libos_c.a; these are for other processors.
 */
#ifndef SHIMS_H
#define SHIMS_H

#include <stdbool.h>
#include <stddef.h>
#include <stdint.h>

/* The result of a request for memory: a block, or that there is none. */
struct tried {
    bool ok;
    uint8_t *p;
};

/* heap.c, over the allocator of the C library */
struct tried rattle_alloc(size_t size, size_t align);
struct tried rattle_realloc(uint8_t *block, size_t kept, size_t size, size_t align);
void rattle_dealloc(uint8_t *block);

/* system.c, over the C library */
size_t rattle_arg_count(void);
ptrdiff_t rattle_arg(size_t i, uint8_t *out, size_t room);
ptrdiff_t rattle_env(const char *name, uint8_t *out, size_t room);
ptrdiff_t rattle_env_at(size_t i, uint8_t *out, size_t room);
int rattle_errno(void);
void rattle_set_errno(int error);
int rattle_open_dir_at(int dir, const char *name);
int rattle_set_nonblocking(int fd, bool on);
int rattle_lock_range(int fd, int16_t kind, int64_t start, int64_t length);
ptrdiff_t rattle_write_parts(int fd, bool is_socket, const uint8_t *a, size_t a_length,
                             const uint8_t *b, size_t b_length, const uint8_t *c, size_t c_length,
                             const uint8_t *d, size_t d_length);

#endif
