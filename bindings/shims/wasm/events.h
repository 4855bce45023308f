/* SPDX-License-Identifier: MIT */
/* Many events at one call. */
#ifndef EVENTS_H
#define EVENTS_H

#include "escape_stream_parser.h"

/*
 * How many bytes a call takes at most, and how many words an event needs at most. A byte that is no
 * UTF-8 is three bytes of text, and a character may be left of the call before.
 */
enum { CHUNK = 32768, WORDS = 16384, MOST_WORDS = 1024, TEXT = 3 * CHUNK + 16 };

/* A parser, and the events of a call. */
struct events {
    uint32_t taken;       /* how many bytes the call took */
    uint32_t words;       /* how many there are of records */
    uint32_t text_length; /* how many bytes there are of text */
    uint32_t is_done;     /* whether all bytes were taken, and no event is left */
    uint32_t records[WORDS];
    uint8_t text[TEXT];
    struct escape_stream_parser parser;
    struct escape_stream_event event;
};

/*
 * Takes at most CHUNK bytes of a stream, and notes their events, as many as there is room for: the
 * last is the first one whose string lies in the upper half of the buffer. Each is its kind and
 *
 * TEXT                 how many units of UTF-16 it has; CHARACTER is part of a TEXT
 * CONTROL, DATA_BYTE   the byte
 * ESCAPE               the final byte; the intermediates
 * CSI                  the final byte; whether more came; how many entries it has, and these
 * OSC, APC             the length of its text, in the buffer
 * DCS                  the final byte; the intermediates; the length of its parameters, which are
 *                      in the buffer
 * DATA                 where it begins in the bytes; its length
 */
void next_events(struct events *it, uint8_t *buffer, size_t size, const uint8_t *bytes,
                 size_t length);

#endif
