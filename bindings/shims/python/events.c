/* SPDX-License-Identifier: MIT */
/*
 * Many events of escape_stream_next at one call, as numbers, since a call from Python costs more
 * than an event. It decides nothing: an event is what escape_stream_next says it is.
 */
#include "escape_stream_parser.h"
#include <string.h>

/*
 * How many bytes a call takes at most, how many words of records there are, how many of these an
 * event needs at most, and how many bytes of strings are kept. A byte that is no UTF-8 is three
 * bytes of text, and a character may be left of the call before.
 */
enum {
    CHUNK = 32768,
    WORDS = 16384,
    MOST_WORDS = 1024,
    TEXT = 3 * CHUNK + 16,
    STRINGS = 65536
};

/* A parser, and the events of a call. _library.py has its fields, too. */
struct many {
    uint32_t taken;         /* how many bytes the call took */
    uint32_t words;         /* how many there are of records */
    uint32_t text_length;   /* how many bytes there are of text */
    uint32_t string_length; /* how many bytes there are of strings */
    uint32_t is_done;       /* whether all bytes were taken, and no event is left */
    uint32_t is_lent;       /* whether the last string is in the upper half of the buffer */
    uint32_t records[WORDS];
    uint8_t text[TEXT];
    uint8_t strings[STRINGS];
    struct escape_stream_parser parser;
    struct escape_stream_event event;
};

_Static_assert(sizeof(struct many) <= 300000, "the room that _library.py has for it");

static void put(struct many *it, uint32_t word) { it->records[it->words++] = word; }

/* Appends characters, to the run before where that came last. A run is how many it has. */
static void put_text(struct many *it, uint32_t *run, const uint8_t *text, size_t length)
{
    uint32_t characters = 0;

    for (size_t i = 0; i < length; i++)
        characters += (text[i] & 0xc0) != 0x80;
    memcpy(it->text + it->text_length, text, length);
    it->text_length += (uint32_t)length;
    if (*run && *run + 1 == it->words) {
        it->records[*run] += characters;
        return;
    }
    put(it, ESCAPE_STREAM_TEXT);
    *run = it->words;
    put(it, characters);
}

/* The intermediates, how many there are, and whether more came. */
static void put_marks(struct many *it, const struct escape_stream_event *event)
{
    put(it, event->intermediates[0] | (uint32_t)event->intermediates[1] << 8 |
                (uint32_t)event->kept << 16 | (uint32_t)event->has_more << 24);
}

/*
 * How many words follow, and these: the final byte, whether more came, and the entries. A number
 * below 2^30 is a word; a byte has bit 31; bit 30 alone says that two words follow.
 */
static void put_sequence(struct many *it, const struct escape_stream_event *event)
{
    uint32_t first = it->words++;

    put(it, event->byte);
    put(it, event->has_more);
    for (size_t i = 0; i < event->count; i++) {
        const struct escape_stream_entry *entry = &event->entries[i];
        uint64_t number = (uint64_t)entry->number;
        if (entry->is_byte) {
            put(it, 0x80000000u | entry->byte);
        } else if (number < 0x40000000u) {
            put(it, (uint32_t)number);
        } else {
            put(it, 0x40000000u);
            put(it, (uint32_t)number);
            put(it, (uint32_t)(number >> 32));
        }
    }
    it->records[first] = it->words - first - 1;
}

/* The length of a string, and its bytes, where there is room for them. */
static void put_string(struct many *it, const uint8_t *text, size_t length)
{
    put(it, (uint32_t)length);
    it->is_lent = length > STRINGS - it->string_length;
    if (!it->is_lent) {
        memcpy(it->strings + it->string_length, text, length);
        it->string_length += (uint32_t)length;
    }
}

/* Appends an event that is no text, and for a string the byte that ended it. */
static void put_event(struct many *it, const uint8_t *text, uint32_t end)
{
    const struct escape_stream_event *event = &it->event;

    put(it, event->kind);
    switch (event->kind) {
    case ESCAPE_STREAM_CONTROL:
    case ESCAPE_STREAM_DATA_BYTE:
        put(it, event->byte);
        break;
    case ESCAPE_STREAM_ESCAPE:
        put(it, event->byte);
        put_marks(it, event);
        break;
    case ESCAPE_STREAM_CSI:
        put_sequence(it, event);
        break;
    case ESCAPE_STREAM_DATA:
        put(it, it->taken + (uint32_t)event->start);
        put(it, (uint32_t)event->length);
        break;
    case ESCAPE_STREAM_DCS:
        put(it, event->byte);
        put_marks(it, event);
        put_string(it, text, event->length);
        break;
    case ESCAPE_STREAM_OSC:
    case ESCAPE_STREAM_APC:
        put(it, end);
        put_string(it, text, event->length);
        break;
    case ESCAPE_STREAM_DCS_END:
    case ESCAPE_STREAM_LIMIT:
        put(it, end);
        break;
    }
}

void escape_stream_many_begin(struct many *it) { escape_stream_begin(&it->parser); }

bool escape_stream_many_is_ground(const struct many *it)
{
    return escape_stream_is_ground(&it->parser);
}

/*
 * Takes at most CHUNK bytes of a stream, and notes their events, as many as there is room for: the
 * last is the first one whose string is not kept.
 */
void escape_stream_many_next(
    struct many *it, uint8_t *buffer, size_t size, const uint8_t *bytes, size_t length)
{
    const struct escape_stream_event *event = &it->event;
    uint32_t run = 0;
    uint8_t utf8[4];

    it->taken = it->words = it->text_length = it->string_length = 0;
    it->is_done = it->is_lent = false;
    if (length > CHUNK)
        length = CHUNK;
    while (!it->is_done && !it->is_lent && it->words < WORDS - MOST_WORDS) {
        const uint8_t *at = bytes + it->taken;
        size_t taken =
            escape_stream_next(&it->parser, buffer, size, at, length - it->taken, &it->event);
        if (event->kind == ESCAPE_STREAM_TEXT)
            put_text(it, &run, at + event->start, event->length);
        else if (event->kind == ESCAPE_STREAM_CHARACTER)
            put_text(it, &run, utf8, escape_stream_utf8(event->byte, utf8));
        else if (event->kind != ESCAPE_STREAM_NONE)
            put_event(it, buffer + size / 2, escape_stream_string_end(event, at, taken));
        it->taken += (uint32_t)taken;
        it->is_done = event->kind == ESCAPE_STREAM_NONE || event->kind == ESCAPE_STREAM_FAILED;
    }
}
