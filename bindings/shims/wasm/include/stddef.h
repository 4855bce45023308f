/* SPDX-License-Identifier: MIT */
/* The part of this header that the library's headers use, for a target without a C library. */
#ifndef STDDEF_H
#define STDDEF_H

typedef __SIZE_TYPE__ size_t;

#define NULL ((void *)0)
#define offsetof(type, member) __builtin_offsetof(type, member)

#endif
