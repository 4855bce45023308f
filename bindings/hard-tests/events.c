/* SPDX-License-Identifier: MIT */
/*
 * The parser: the events of a stream in chunks, over a buffer of any length, are those of the whole
 * over a large one, but that of a string that is longer than half the buffer there is an event
 * ESCAPE_STREAM_LIMIT.
 */
#include "hard.h"
#include "escape_stream_parser.h"

#include <string.h>

enum { BUFFER_ROOM = 131072, LOG_ROOM = 1 << 22, SMALL = 80 };

/* The events, a record each: a character of a run is one, and a byte of the data of a device
 * control string. */
struct record {
    uint32_t kind, byte, payload;
    uint32_t text; /* how much of the payload is the text of a string */
};

struct log {
    uint8_t at[LOG_ROOM];
    size_t length;
};

static struct log whole, expected, cut;
static struct area buffers, parsers, events;
static uint8_t shown[TEXT_ROOM];

void begin_events(void) {
    buffers = guarded(BUFFER_ROOM);
    parsers = guarded(2 * PAGE);
    events = guarded(2 * PAGE);
}

static void add(struct log *log, const void *bytes, size_t length) {
    if (length > sizeof log->at - log->length)
        fails("more events than there is room for", length);
    memcpy(log->at + log->length, bytes, length);
    log->length += length;
}

static void add_byte(struct log *log, uint32_t kind, uint32_t byte) {
    struct record record = {kind, byte, 0, 0};
    add(log, &record, sizeof record);
}

/* The next character of well-formed UTF-8 without controls. Anything else is a fault. */
static uint32_t character(const uint8_t *bytes, size_t rest, size_t *taken) {
    static const uint32_t LEAST[] = {0x20, 0xa0, 0x800, 0x10000};
    uint8_t first = bytes[0];
    size_t more = first < 0x80 ? 0 : first < 0xe0 ? 1 : first < 0xf0 ? 2 : 3;
    uint32_t c = first < 0x80 ? first : first & (0x3fu >> more);
    if ((first >= 0x80 && first < 0xc2) || first > 0xf4 || more >= rest)
        fails("a run with a byte that is no UTF-8", first);
    for (size_t i = 1; i <= more; i++) {
        if ((bytes[i] & 0xc0) != 0x80)
            fails("a run with a byte that is no UTF-8", bytes[i]);
        c = c << 6 | (bytes[i] & 0x3f);
    }
    if (c < LEAST[more] || (c >= 0xd800 && c < 0xe000) || c > 0x10ffff)
        fails("a run with what is no character, or a control", c);
    *taken = more + 1;
    return c;
}

static void add_run(struct log *log, const uint8_t *text, size_t length) {
    for (size_t at = 0, taken; at < length; at += taken)
        add_byte(log, ESCAPE_STREAM_TEXT, character(text + at, length - at, &taken));
}

static void add_data(struct log *log, const uint8_t *text, size_t length) {
    for (size_t at = 0; at < length; at++)
        add_byte(log, ESCAPE_STREAM_DATA, text[at]);
}

/* A sequence or a string: its intermediates, its entries and its text. */
static void
add_sequence(struct log *log, const struct escape_stream_event *event, const uint8_t *text) {
    bool is_dcs = event->kind == ESCAPE_STREAM_DCS, is_csi = event->kind == ESCAPE_STREAM_CSI;
    bool is_text = is_dcs || event->kind == ESCAPE_STREAM_OSC || event->kind == ESCAPE_STREAM_APC;
    uint8_t flags[2] = {
        is_csi || is_dcs || event->kind == ESCAPE_STREAM_ESCAPE ? event->has_more : 0, 0};
    size_t from = log->length,
           kept = is_dcs || event->kind == ESCAPE_STREAM_ESCAPE ? event->kept : 0;
    struct record record = {event->kind, event->byte, 0, is_text ? (uint32_t)event->length : 0};
    if (is_text && !is_dcs)
        record.byte = 0;
    add(log, &record, sizeof record);
    add(log, text, record.text);
    add(log, event->intermediates, kept);
    add(log, flags, sizeof flags);
    for (size_t i = 0; is_csi && i < event->count; i++) {
        const struct escape_stream_entry *entry = &event->entries[i];
        int64_t number = entry->is_byte ? -1 - entry->byte : entry->number;
        if (!entry->is_byte && number < 0)
            fails("a number less than zero", i);
        add(log, &number, sizeof number);
    }
    record.payload = (uint32_t)(log->length - from - sizeof record);
    memcpy(log->at + from, &record, sizeof record);
}

static void
add_event(struct log *log, const struct escape_stream_event *event, const uint8_t *text) {
    switch (event->kind) {
    case ESCAPE_STREAM_TEXT:
        add_run(log, text, event->length);
        return;
    case ESCAPE_STREAM_DATA:
        add_data(log, text, event->length);
        return;
    case ESCAPE_STREAM_CHARACTER:
        add_byte(log, ESCAPE_STREAM_TEXT, event->byte);
        return;
    case ESCAPE_STREAM_DATA_BYTE:
        add_byte(log, ESCAPE_STREAM_DATA, event->byte);
        return;
    case ESCAPE_STREAM_CONTROL:
        add_byte(log, event->kind, event->byte);
        return;
    case ESCAPE_STREAM_DCS_END:
    case ESCAPE_STREAM_LIMIT:
        add_byte(log, event->kind, 0);
        return;
    case ESCAPE_STREAM_FAILED:
        fails("the parser failed", 0);
    default:
        add_sequence(log, event, text);
    }
}

/* The places and counts that the header promises. */
static void
check_event(const struct escape_stream_event *event, size_t room, size_t taken, size_t length) {
    bool is_run = event->kind == ESCAPE_STREAM_TEXT || event->kind == ESCAPE_STREAM_DATA;
    bool is_command = event->kind == ESCAPE_STREAM_OSC || event->kind == ESCAPE_STREAM_APC;
    bool is_string = is_command || event->kind == ESCAPE_STREAM_DCS;
    if (taken > length)
        fails("more bytes were taken than there are", taken);
    if (event->kind > ESCAPE_STREAM_LIMIT)
        fails("an unknown kind of event", event->kind);
    if (event->kept > 2 || event->count > 256)
        fails("more intermediates or entries than there is room for", event->count);
    if (is_run && (event->start > taken || event->length > taken - event->start))
        fails("a run past the bytes that were taken", event->length);
    if (is_string && event->length > room / 2)
        fails("a string longer than half the buffer", event->length);
}

/* A chunk of a stream. The half of the buffer that is not the parser's is overwritten between two
 * calls. */
static void feed(struct log *log, struct escape_stream_parser *parser, uint8_t *buffer, size_t room,
                 struct bytes chunk) {
    struct escape_stream_event *event = (void *)placed(&events, sizeof *event);
    struct bytes rest = lent(chunk);
    size_t events_left = 2 * chunk.length + 3;
    for (;;) {
        size_t taken = escape_stream_next(parser, buffer, room, rest.at, rest.length, event);
        at_hand.calls++;
        check_event(event, room, taken, rest.length);
        if (event->kind == ESCAPE_STREAM_NONE && taken != rest.length)
            fails("bytes were left without an event", rest.length - taken);
        if (event->kind == ESCAPE_STREAM_NONE)
            return;
        if (--events_left == 0)
            fails("more events than two for each byte", chunk.length);
        add_event(log, event, escape_stream_text(event, buffer, room, rest.at));
        if (room < BUFFER_ROOM)
            memset(buffer + room / 2, JUNK, room - room / 2);
        rest.at += taken;
        rest.length -= taken;
    }
}

/* How long the next chunk is: the way 0 is whole, 1 at random, and each other in chunks of one byte
 * less than its number. */
size_t chunk_length(size_t way, size_t rest) {
    size_t wanted = way == 0 ? rest : way > 1 ? way - 1 : one_in(16) ? below(rest + 1) : below(9);
    return wanted < rest ? wanted : rest;
}

static void feed_all(struct log *log, size_t room, struct bytes stream, size_t way) {
    struct escape_stream_parser *parser = (void *)placed(&parsers, sizeof *parser);
    uint8_t *buffer = placed(&buffers, room);
    log->length = 0;
    memset(parser, 0, sizeof *parser);
    escape_stream_begin(parser);
    do {
        size_t length = chunk_length(way, stream.length);
        feed(log, parser, buffer, room, (struct bytes){stream.at, length});
        stream.at += length;
        stream.length -= length;
    } while (stream.length > 0);
}

static struct record record_at(const struct log *log, size_t at) {
    struct record record;
    memcpy(&record, log->at + at, sizeof record);
    return record;
}

/* Limits the expected events. A device control string whose header is too long has no data. */
static void limited(size_t limit) {
    bool is_left_out = false;
    struct record record;
    expected.length = 0;
    for (size_t at = 0; at < whole.length; at += sizeof record + record.payload) {
        record = record_at(&whole, at);
        bool is_data = record.kind == ESCAPE_STREAM_DATA || record.kind == ESCAPE_STREAM_DCS_END;
        is_left_out = is_left_out && is_data;
        if (is_left_out)
            continue;
        if (record.text > limit) {
            is_left_out = record.kind == ESCAPE_STREAM_DCS;
            add_byte(&expected, ESCAPE_STREAM_LIMIT, 0);
        } else {
            add(&expected, whole.at + at, sizeof record + record.payload);
        }
    }
}

static size_t some_room(void) {
    static const size_t ROOMS[] = {127, 128, 255, 256, 1000, 1023, 1024, 4096, 8192, 65536};
    return one_in(4) ? ROOMS[below(sizeof ROOMS / sizeof *ROOMS)] : below(SMALL + 1);
}

/* Checks each text. Any bytes are a query, and the data of a sixel image. */
static void check_commands(void) {
    struct record record;
    for (size_t at = 0; at < whole.length; at += sizeof record + record.payload) {
        struct bytes text = {whole.at + at + sizeof record, 0};
        record = record_at(&whole, at);
        text.length = record.text;
        if (record.kind != ESCAPE_STREAM_OSC && record.kind != ESCAPE_STREAM_APC)
            continue;
        check_command(record.kind == ESCAPE_STREAM_OSC ? COMMANDS : IMAGES, text);
        if (one_in(4)) {
            check_command(QUERIES, text);
            check_sixel(text);
        }
    }
}

/* Returns the text that the policy text admits: characters but DEL, and three controls. */
static struct bytes shown_text(void) {
    struct record record;
    size_t length = 0;
    for (size_t at = 0; at < whole.length; at += sizeof record + record.payload) {
        record = record_at(&whole, at);
        bool is_text = record.kind == ESCAPE_STREAM_TEXT && record.byte != 0x7f;
        bool is_space = record.byte == '\t' || record.byte == '\n' || record.byte == '\r';
        if (is_text || (record.kind == ESCAPE_STREAM_CONTROL && is_space))
            length += escape_stream_utf8(record.byte, shown + length);
    }
    return (struct bytes){shown, length};
}

/* Checks the events of a stream, and returns what of it is shown. */
struct bytes check_events(struct bytes stream) {
    at_hand.call = "escape_stream_next";
    feed_all(&whole, BUFFER_ROOM, stream, 0);
    for (int times = 0; times < 3; times++) {
        size_t room = some_room(), way = times < 2 ? 1 : 2 + below(40);
        limited(room / 2);
        feed_all(&cut, room, stream, way);
        if (cut.length != expected.length || memcmp(cut.at, expected.at, cut.length) != 0)
            fails("other events in chunks, over a buffer of", room);
    }
    check_commands();
    return shown_text();
}
