/* SPDX-License-Identifier: MIT */
/* How calls are exported that take and return numbers of 32 bits. */
#ifndef EXPORTS_H
#define EXPORTS_H

#include <stdint.h>

/*
 * The attribute export_name would want a table of functions of 64 bits, which engines of 2023 do
 * not read. A test, which runs on another processor, calls host_NAME.
 */
#ifdef __wasm__
#define EXPORTED(name, type) \
    __asm__(".functype host_" #name " " type "\n.export_name host_" #name ", " #name)
#else
#define EXPORTED(name, type) _Static_assert(sizeof(type) > 0, #name)
#endif

#define NUMBER uint32_t
#define AT(type, place) ((type *)(size_t)(place))
#define BYTES(place) AT(uint8_t, place)

#endif
