/* SPDX-License-Identifier: MIT */
/* The part of this header that the library's headers use, for a target without a C library. */
#ifndef STDBOOL_H
#define STDBOOL_H

#define bool _Bool
#define true 1
#define false 0

#endif
