/* SPDX-License-Identifier: MIT */
/*
 * Tests wasm/events.c, or if PYTHON is defined python/events.c, over random streams in random
 * chunks: what it notes is what escape_stream_next gives, event by event. Each chunk lies in a
 * block of its own.
 */
#ifdef PYTHON
#include "python/events.c"
#define events many
#define next_events escape_stream_many_next
#else
#include "wasm/events.h"
#endif

#include <stdio.h>
#include <stdlib.h>
#include <string.h>

enum { SIZE = 2 * 4096, LONGEST = 3 * CHUNK, MOST_NOTED = 1 << 22 };

/* The events of a stream: the bytes of text and data, the numbers of others. */
struct log {
    size_t length;
    uint8_t bytes[MOST_NOTED];
};
static struct log wanted, found;
static uint8_t buffer[SIZE];

static void check(bool holds, const char *what)
{
    if (!holds) {
        printf("events_test: %s\n", what);
        exit(1);
    }
}

static void note(struct log *to, const void *bytes, size_t length)
{
    check(to->length + length <= MOST_NOTED, "a stream gives too much for the test");
    memcpy(to->bytes + to->length, bytes, length);
    to->length += length;
}

static void note_number(struct log *to, uint64_t number) { note(to, &number, sizeof number); }

static uint32_t some(uint32_t below)
{
    static uint64_t state = 4711;
    state = state * 6364136223846793005u + 1442695040888963407u;
    return (uint32_t)(state >> 33) % below;
}

/* The last part is a string that becomes three times as long. */
#define TEN "\xe2\xe2\xe2\xe2\xe2\xe2\xe2\xe2\xe2\xe2"
static const char *const parts[] = {
    "\x1b[", "\x1b]", "\x1bP", "\x1b_", "\x1b\\", "\a", "\xc2\x9b", ";", ":", "?", "0;title", "m",
    "1", "31", "99999999999999999999", "1073741823", "1073741824", "text", "\xe2\x82\xac", "\xff",
    "\n", "\r", "q#0;2;0;0;0~", "+q544e", "\x18", "\x1b(B", "\xf0\x9f\x98\x80", "a longer text ",
    "\x1b]0;" TEN TEN TEN TEN TEN TEN TEN TEN "\a",
};
enum { PARTS = sizeof parts / sizeof *parts };

/* A random stream, now and then of one part alone, and its length. */
static size_t fill(uint8_t *bytes, bool is_first)
{
    size_t length = 0, most = some(8) && !is_first ? some(4000) : LONGEST - 128;
    uint32_t only = is_first ? PARTS : some(4) ? 0 : 1 + some(PARTS);
    while (length < most) {
        const char *part = parts[only ? only - 1 : some(PARTS)];
        memcpy(bytes + length, part, strlen(part));
        length += strlen(part);
    }
    return length;
}

/* Notes an event, but for a string. */
static void note_event(struct log *to, const struct escape_stream_event *event)
{
    note_number(to, event->kind);
    if (event->kind == ESCAPE_STREAM_CONTROL || event->kind == ESCAPE_STREAM_ESCAPE ||
        event->kind == ESCAPE_STREAM_CSI || event->kind == ESCAPE_STREAM_DCS)
        note_number(to, event->byte);
    if (event->kind == ESCAPE_STREAM_ESCAPE || event->kind == ESCAPE_STREAM_DCS) {
        note_number(to, event->kept);
        note(to, event->intermediates, event->kept);
    }
    if (event->kind == ESCAPE_STREAM_CSI)
        for (size_t i = 0; i < event->count; i++)
            note_number(to, event->entries[i].is_byte ? event->entries[i].byte
                                                      : ~(uint64_t)event->entries[i].number);
}

#ifdef PYTHON
static bool is_end(uint32_t kind)
{
    return kind == ESCAPE_STREAM_OSC || kind == ESCAPE_STREAM_APC ||
           kind == ESCAPE_STREAM_DCS_END || kind == ESCAPE_STREAM_LIMIT;
}
#endif

static bool has_string(uint32_t kind)
{
    return kind == ESCAPE_STREAM_OSC || kind == ESCAPE_STREAM_APC || kind == ESCAPE_STREAM_DCS;
}

/* Notes the byte that ended a string, which the events for Python have. */
static void note_end(const struct escape_stream_event *event, const uint8_t *bytes, size_t taken)
{
#ifdef PYTHON
    if (is_end(event->kind))
        note_number(&wanted, escape_stream_string_end(event, bytes, taken));
#else
    (void)(event && bytes && taken);
#endif
}

/* Notes what escape_stream_next gives of a chunk. */
static void note_directly(struct escape_stream_parser *parser, const uint8_t *bytes, size_t length)
{
    static struct escape_stream_event event;
    uint8_t utf8[4], byte;
    for (;;) {
        size_t taken = escape_stream_next(parser, buffer, SIZE, bytes, length, &event);
        const uint8_t *text = escape_stream_text(&event, buffer, SIZE, bytes);
        byte = (uint8_t)event.byte;
        if (event.kind == ESCAPE_STREAM_NONE)
            return;
        if (event.kind == ESCAPE_STREAM_TEXT || event.kind == ESCAPE_STREAM_DATA)
            note(&wanted, text, event.length);
        else if (event.kind == ESCAPE_STREAM_CHARACTER)
            note(&wanted, utf8, escape_stream_utf8(event.byte, utf8));
        else if (event.kind == ESCAPE_STREAM_DATA_BYTE)
            note(&wanted, &byte, 1);
        else
            note_event(&wanted, &event);
        note_end(&event, bytes, taken);
        if (has_string(event.kind))
            note(&wanted, text, event.length);
        bytes += taken;
        length -= taken;
    }
}

/* How many bytes the characters of a run have, which is counted in characters or in UTF-16. */
static size_t bytes_of(const uint8_t *text, uint32_t units)
{
    size_t length = 0;
    while (units > 0) {
        size_t one = text[length] < 0x80   ? 1
                     : text[length] < 0xe0 ? 2
                     : text[length] < 0xf0 ? 3
                                           : 4;
#ifdef PYTHON
        uint32_t counted = 1;
#else
        uint32_t counted = one == 4 ? 2 : 1;
#endif
        check(units >= counted, "a run ends within a character");
        units -= counted;
        length += one;
    }
    return length;
}

/* Notes an entry, and returns the next one. */
static const uint32_t *note_entry(const uint32_t *word)
{
    uint32_t entry = *word++;
    if (entry & 0x80000000u) {
        note_number(&found, entry & 0xff);
    } else if (entry == 0x40000000u) {
        note_number(&found, ~(word[0] | (uint64_t)word[1] << 32));
        word += 2;
    } else {
        note_number(&found, ~(uint64_t)entry);
    }
    return word;
}

/* Notes the final byte and the entries of a control sequence, and returns what follows. */
static const uint32_t *note_sequence(const uint32_t *word)
{
#ifdef PYTHON
    const uint32_t *end = word + 1 + word[0];
    note_number(&found, word[1]);
    for (word += 3; word < end;)
        word = note_entry(word);
    check(word == end, "a sequence has other words than it says");
#else
    uint32_t left = word[2];
    note_number(&found, word[0]);
    for (word += 3; left > 0; left--)
        word = note_entry(word);
#endif
    return word;
}

static const uint32_t *note_marks(const uint32_t *word)
{
    uint8_t marks[2] = {(uint8_t)*word, (uint8_t)(*word >> 8)};
    note_number(&found, *word >> 16 & 0xff);
    note(&found, marks, *word >> 16 & 0xff);
    return word + 1;
}

/* The strings of a call that are not in the buffer. */
static const uint8_t *strings;

/* Notes a string, which lies in the buffer, or among those that were kept. */
static void note_string(size_t length, bool is_lent)
{
    note(&found, is_lent ? buffer + SIZE / 2 : strings, length);
    if (!is_lent)
        strings += length;
}

static bool is_lent(const struct events *it, const uint32_t *next)
{
#ifdef PYTHON
    return it->is_lent && next == it->records + it->words;
#else
    return it && next;
#endif
}

/* Notes the record at a place, and returns the next one. */
static const uint32_t *note_record(
    const struct events *it, const uint32_t *word, const uint8_t **text, const uint8_t *bytes)
{
    uint32_t kind = *word++;
    uint8_t byte;
    size_t length;
    switch (kind) {
    case ESCAPE_STREAM_TEXT:
        length = bytes_of(*text, *word++);
        note(&found, *text, length);
        *text += length;
        return word;
    case ESCAPE_STREAM_DATA:
        note(&found, bytes + word[0], word[1]);
        return word + 2;
    case ESCAPE_STREAM_DATA_BYTE:
        byte = (uint8_t)*word++;
        note(&found, &byte, 1);
        return word;
    }
    note_number(&found, kind);
    if (kind == ESCAPE_STREAM_CSI)
        return note_sequence(word);
    if (kind == ESCAPE_STREAM_CONTROL || kind == ESCAPE_STREAM_ESCAPE || kind == ESCAPE_STREAM_DCS)
        note_number(&found, *word++);
    if (kind == ESCAPE_STREAM_ESCAPE || kind == ESCAPE_STREAM_DCS)
        word = note_marks(word);
#ifdef PYTHON
    if (is_end(kind))
        note_number(&found, *word++);
#endif
    if (has_string(kind)) {
        length = *word++;
        note_string(length, is_lent(it, word));
    }
    return word;
}

/* Notes what next_events notes of a chunk. */
static void note_batches(struct events *it, const uint8_t *bytes, size_t length)
{
    do {
        const uint8_t *text = it->text;
        next_events(it, buffer, SIZE, bytes, length);
        check(it->words <= WORDS && it->text_length <= TEXT, "too many events were noted");
#ifdef PYTHON
        strings = it->strings;
#endif
        for (const uint32_t *word = it->records; word < it->records + it->words;)
            word = note_record(it, word, &text, bytes);
        check(text == it->text + it->text_length, "text is left of the runs");
        bytes += it->taken;
        length -= it->taken;
    } while (!it->is_done);
    check(length == 0, "bytes are left");
}

/* Cuts a stream into chunks, each in a block of its own, and calls one of the two on each. */
static void cut(const uint8_t *stream, size_t length, struct events *it,
                struct escape_stream_parser *parser)
{
    while (length > 0) {
        size_t part = some(3) ? 1 + some(40) : CHUNK;
        uint8_t *block;
        part = part < length ? part : length;
        block = malloc(part);
        check(block, "no memory");
        memcpy(block, stream, part);
        if (it)
            note_batches(it, block, part);
        else
            note_directly(parser, block, part);
        free(block);
        stream += part;
        length -= part;
    }
}

int main(void)
{
    static struct events events;
    static struct escape_stream_parser parser;
    static uint8_t stream[LONGEST];
    for (int i = 0; i < 600; i++) {
        size_t length = fill(stream, i == 0);
        found.length = wanted.length = 0;
        escape_stream_begin(&events.parser);
        cut(stream, length, &events, 0);
        escape_stream_begin(&parser);
        cut(stream, length, 0, &parser);
        check(found.length == wanted.length && !memcmp(found.bytes, wanted.bytes, found.length),
              "the events are others");
    }
    return 0;
}
