/* SPDX-License-Identifier: MIT */
/* Numbers that depend on the seed alone: SplitMix64. */
#include "hard.h"

static uint64_t state;

uint64_t next_number(void) {
    uint64_t mixed = state += UINT64_C(0x9e3779b97f4a7c15);
    mixed = (mixed ^ mixed >> 30) * UINT64_C(0xbf58476d1ce4e5b9);
    mixed = (mixed ^ mixed >> 27) * UINT64_C(0x94d049bb133111eb);
    return mixed ^ mixed >> 31;
}

/* The numbers of one seed are not those of another, a few places on. */
void begin_numbers(uint64_t seed) {
    state = seed;
    state = next_number();
}

/* A number from 0 to less than `most`. */
size_t below(size_t most) {
    return (size_t)(next_number() % most);
}

bool one_in(size_t count) {
    return below(count) == 0;
}
