/* SPDX-License-Identifier: MIT */
/*
 * Many events of escape_stream_next at one call: as numbers, one after another, and the text of
 * all runs of characters as one, with the length that each has in UTF-16. It decides nothing: an
 * event is what escape_stream_next says it is.
 */
#include "events.h"

/* How many units of UTF-16 characters in UTF-8 have. */
static uint32_t units_of(const uint8_t *text, size_t length)
{
    const uint64_t high = 0x8080808080808080u;
    uint32_t units = 0;
    size_t i = 0;
    while (i < length) {
        uint64_t eight;
        if (length - i >= 8) {
            __builtin_memcpy(&eight, text + i, 8);
            if (!(eight & high)) {
                units += 8;
                i += 8;
                continue;
            }
        }
        units += (uint32_t)((text[i] & 0xc0) != 0x80) + (uint32_t)(text[i] >= 0xf0);
        i++;
    }
    return units;
}

static void put(struct events *it, uint32_t word) { it->records[it->words++] = word; }

/* Appends characters, to the run before where that came last. */
static void put_text(struct events *it, uint32_t *run, const uint8_t *text, size_t length)
{
    uint32_t units = units_of(text, length);
    __builtin_memcpy(it->text + it->text_length, text, length);
    it->text_length += (uint32_t)length;
    if (*run && *run + 1 == it->words) {
        it->records[*run] += units;
        return;
    }
    put(it, ESCAPE_STREAM_TEXT);
    *run = it->words;
    put(it, units);
}

/* The intermediates, how many there are, and whether more came. */
static uint32_t marks_of(const struct escape_stream_event *event)
{
    return event->intermediates[0] | (uint32_t)event->intermediates[1] << 8 |
           (uint32_t)event->kept << 16 | (uint32_t)event->has_more << 24;
}

/* A number below 2^30 is a word; a byte has bit 31; bit 30 alone says that two words follow. */
static void put_entries(struct events *it, const struct escape_stream_event *event)
{
    put(it, (uint32_t)event->count);
    for (size_t i = 0; i < event->count; i++) {
        const struct escape_stream_entry *entry = &event->entries[i];
        uint64_t number = (uint64_t)entry->number;
        if (entry->is_byte) {
            put(it, 0x80000000u | entry->byte);
        } else if (number < 0x40000000u) {
            put(it, (uint32_t)number);
        } else {
            put(it, 0x40000000u);
            put(it, (uint32_t)number);
            put(it, (uint32_t)(number >> 32));
        }
    }
}

/* Appends an event that is no text, and says whether its string lies in the buffer. */
static bool put_event(struct events *it, const struct escape_stream_event *event)
{
    put(it, event->kind);
    switch (event->kind) {
    case ESCAPE_STREAM_CONTROL:
    case ESCAPE_STREAM_DATA_BYTE:
        put(it, event->byte);
        return false;
    case ESCAPE_STREAM_ESCAPE:
        put(it, event->byte);
        put(it, marks_of(event));
        return false;
    case ESCAPE_STREAM_CSI:
        put(it, event->byte);
        put(it, event->has_more);
        put_entries(it, event);
        return false;
    case ESCAPE_STREAM_DATA:
        put(it, it->taken + (uint32_t)event->start);
        put(it, (uint32_t)event->length);
        return false;
    case ESCAPE_STREAM_DCS:
        put(it, event->byte);
        put(it, marks_of(event));
        put(it, (uint32_t)event->length);
        return true;
    case ESCAPE_STREAM_OSC:
    case ESCAPE_STREAM_APC:
        put(it, (uint32_t)event->length);
        return true;
    }
    return false;
}

void next_events(struct events *it, uint8_t *buffer, size_t size, const uint8_t *bytes,
                 size_t length)
{
    struct escape_stream_event *event = &it->event;
    uint32_t run = 0;
    uint8_t utf8[4];
    it->taken = it->words = it->text_length = 0;
    it->is_done = false;
    while (it->words < WORDS - MOST_WORDS) {
        const uint8_t *at = bytes + it->taken;
        size_t taken = escape_stream_next(&it->parser, buffer, size, at, length - it->taken, event);
        bool stops = false;
        if (event->kind == ESCAPE_STREAM_TEXT)
            put_text(it, &run, at + event->start, event->length);
        else if (event->kind == ESCAPE_STREAM_CHARACTER)
            put_text(it, &run, utf8, escape_stream_utf8(event->byte, utf8));
        else if (event->kind != ESCAPE_STREAM_NONE)
            stops = put_event(it, event) || event->kind == ESCAPE_STREAM_FAILED;
        it->taken += (uint32_t)taken;
        it->is_done = event->kind == ESCAPE_STREAM_NONE;
        if (stops || it->is_done)
            return;
    }
}
