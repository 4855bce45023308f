/* SPDX-License-Identifier: MIT */
/* The part of this header that the library's headers use, for a target without a C library. */
#ifndef STDINT_H
#define STDINT_H

typedef __UINT8_TYPE__ uint8_t;
typedef __UINT16_TYPE__ uint16_t;
typedef __UINT32_TYPE__ uint32_t;
typedef __UINT64_TYPE__ uint64_t;
typedef __INT64_TYPE__ int64_t;

#define UINT32_C(number) number##u

#endif
