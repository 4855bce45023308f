/* SPDX-License-Identifier: MIT */
/*
 * escape_stream_parser.h - a parser of terminal escape sequences that takes a stream in chunks and
 * takes no memory
 *
 * A stream is bytes as a program writes them to a terminal: UTF-8 text, control characters, and the
 * control functions of ECMA-48 and xterm, such as colours, cursor movements and titles. Any bytes
 * are a stream, and it may be cut anywhere.
 *
 *     cc program.c $(pkg-config --cflags --libs escape_stream_parser)
 *
 * That links libescape_stream.so.0, or with -static libescape_stream.a. Both run on Linux, on every
 * x86-64 or, built for it, on every aarch64, with the C library of GNU of any version, or musl.
 *
 * The calls need nothing but memcpy, memmove and memset. The results of the calls are proved, for
 * every stream, in any chunks; docs/EMBEDDING.md gives the extent of the proof and its assumptions.
 * Nothing checks the caller, who owes this:
 *
 *   - No pointer is NULL, but `buffer` or `bytes` of a length of 0, and no two objects that a call
 *     is given overlap.
 *   - A parser and an event are initialized before their first use, for example by = {0}; a parser
 *     is then begun. The caller reads and writes nothing of a parser.
 *   - The buffer has the same length and the same lower half at each call of a parser: the first
 *     length / 2 bytes are the parser's. It is initialized, too. A copy of a parser, with a copy of
 *     its buffer, is another parser at the same place of the stream. The buffer may also become
 *     larger, if its beginning is the lower half that it had and no string so far was longer than
 *     that: escape_stream_room says in time when it has to.
 *   - `bytes` is `length` initialized bytes that can be read, and nobody writes them during the
 *     call.
 *   - Two calls of one parser do not run at the same time.
 *
 * Calls of several parsers may run in several threads at once. None allocates, starts a thread,
 * takes a lock or touches a file.
 */
#ifndef ESCAPE_STREAM_PARSER_H
#define ESCAPE_STREAM_PARSER_H

#include <stdbool.h>
#include <stddef.h>
#include <stdint.h>

#ifdef __cplusplus
extern "C" {
#endif

/* The version of this header, and of the library beside it. */
#define ESCAPE_STREAM_VERSION "0.1.0"
#define ESCAPE_STREAM_VERSION_MAJOR 0
#define ESCAPE_STREAM_VERSION_MINOR 1
#define ESCAPE_STREAM_VERSION_PATCH 0

/*
 * The version of the library that a program runs with, as ESCAPE_STREAM_VERSION has that of the
 * header. Nobody frees the text.
 */
const char *escape_stream_version(void);

/*
 * The kinds of events, and their values. `byte` is a number, `text` the bytes of
 * escape_stream_text.
 *
 * NONE       all bytes were taken, and there is no event
 * TEXT       a run of characters: `text`, well-formed UTF-8 without controls, in the bytes of the
 *            call
 * CHARACTER  a character, `byte`: one that two calls share, or U+FFFD for bytes that are no UTF-8
 * CONTROL    a control character, `byte`, of C0 or C1
 * ESCAPE     an escape sequence: its intermediates, its final byte `byte`
 * CSI        a control sequence: its entries, its final byte `byte`
 * OSC        an operating system command: `text`, all that was between its opener and its end
 * DCS        a device control string begins: its parameter bytes `text`, its intermediates, its
 *            final byte `byte`
 * DATA       a run of its data: `text`, in the bytes of the call
 * DATA_BYTE  a byte of its data, `byte`
 * DCS_END    it ends
 * APC        an application program command: `text`
 * FAILED     something else wrote the parser or the lower half of the buffer, or the buffer is
 *            another one than the rules above have; from then on no call of the parser gives
 *            anything else. If the caller keeps to these rules it never comes, as is proved
 * LIMIT      a string, or the header of a device control string, ended of which there was more than
 *            half the buffer: its event is not handed out, nor are the data of the device control
 *            string
 */
#define ESCAPE_STREAM_NONE 0
#define ESCAPE_STREAM_TEXT 1
#define ESCAPE_STREAM_CHARACTER 2
#define ESCAPE_STREAM_CONTROL 3
#define ESCAPE_STREAM_ESCAPE 4
#define ESCAPE_STREAM_CSI 5
#define ESCAPE_STREAM_OSC 6
#define ESCAPE_STREAM_DCS 7
#define ESCAPE_STREAM_DATA 8
#define ESCAPE_STREAM_DATA_BYTE 9
#define ESCAPE_STREAM_DCS_END 10
#define ESCAPE_STREAM_APC 11
#define ESCAPE_STREAM_FAILED 12
#define ESCAPE_STREAM_LIMIT 13

/*
 * An entry of a control sequence: a number, or a byte that is none, as a separator, a marker or an
 * intermediate.
 */
struct escape_stream_entry {
    int64_t number; /* held at INT64_MAX */
    uint8_t byte;
    bool is_byte;
};

/* An event. A member that its kind does not name has no meaning. */
struct escape_stream_event {
    uint32_t kind;
    uint32_t byte;
    size_t start; /* the index in the bytes of the call of the first byte of a run */
    size_t length; /* of the text, in bytes */
    uint8_t intermediates[2];
    size_t kept;   /* how many intermediates there are */
    bool has_more; /* more intermediates, or more entries, came than are kept */
    size_t count;  /* how many entries there are */
    struct escape_stream_entry entries[256];
};

/* A parser. Its fields are its own. */
struct escape_stream_parser {
    uint32_t state, pending;
    uint8_t first, second, third, intermediates[2];
    size_t kept;
    bool has_more;
    uint32_t form;
    size_t count;
    struct escape_stream_entry entries[256];
    bool is_truncated, is_open;
    uint64_t number;
    size_t text;
    bool is_over;
    uint32_t due_kind, due_value;
    bool has_failed;
};

/* Begins a stream. */
void escape_stream_begin(struct escape_stream_parser *parser);

/*
 * Takes bytes of the stream up to the next event, notes it in `event`, and returns how many bytes
 * were taken. Call it again with the bytes after them until the kind is ESCAPE_STREAM_NONE, for
 * which all bytes were taken; a call may take none and give an event. Then go on with the next
 * chunk of the stream. However a stream is cut, its events are the same, but that a run may come in
 * several, or its characters one by one.
 *
 * A string, which is the text of an OSC or an APC or the parameter bytes of a DCS, of more than
 * buffer_length / 2 bytes is not handed out: it is passed over, an event ESCAPE_STREAM_LIMIT is in
 * its place, and the bytes after it are parsed as ever.
 */
size_t escape_stream_next(
    struct escape_stream_parser *parser, uint8_t *buffer, size_t buffer_length,
    const uint8_t *bytes, size_t length, struct escape_stream_event *event);

/*
 * How many bytes the next calls may take, one after another, so that no string in them becomes
 * longer than half the buffer, whatever the bytes are: each adds at most the three of U+FFFD. So a
 * program that takes strings of any length, as files of OSC 1337 and OSC 52, needs no room for the
 * longest from the start:
 *
 *     while (escape_stream_room(&parser, size) < length) {
 *         uint8_t *larger = realloc(buffer, 2 * size);
 *         if (larger == NULL)
 *             break; // longer strings are passed over from now on: grow no more
 *         memset(larger + size, 0, size);
 *         buffer = larger;
 *         size *= 2;
 *     }
 *
 * before the calls for a chunk of `length` bytes. A text in the buffer is read before that.
 */
static inline size_t escape_stream_room(
    const struct escape_stream_parser *parser, size_t buffer_length)
{
    /* the numbers of an operating system command, a header and an application program command */
    bool has_text = parser->state == 3 || parser->state == 4 || parser->state == 7;
    size_t kept = has_text && !parser->is_over ? parser->text : 0;
    size_t left = buffer_length / 2 > kept ? buffer_length / 2 - kept : 0;

    return left / 3 > 3 ? left / 3 - 3 : 0;
}

/*
 * Whether no character, sequence or string of the stream so far is unfinished: the events of the
 * next bytes are then those of a stream of its own. After ESCAPE_STREAM_FAILED it is false.
 */
bool escape_stream_is_ground(const struct escape_stream_parser *parser);

/*
 * The text of an event: `event->length` bytes in the bytes of the call, or in the upper half of the
 * buffer, up to the next call.
 */
static inline const uint8_t *escape_stream_text(
    const struct escape_stream_event *event, const uint8_t *buffer, size_t buffer_length,
    const uint8_t *bytes)
{
    bool is_lent = event->kind == ESCAPE_STREAM_TEXT || event->kind == ESCAPE_STREAM_DATA;
    return is_lent ? bytes + event->start : buffer + buffer_length / 2;
}

/*
 * The byte that ended the string of an event OSC, APC, DCS_END or LIMIT, by the bytes that the call
 * took, so that an answer can end in the same way and a command that was cancelled can be dropped:
 * 0x07 is BEL, 0x18 and 0x1a are CAN and SUB, 0x1b is ESC, that of `ESC \`, the string terminator,
 * or of another escape sequence, which is the next event, and 0x80 to 0x9f is a C1 control. 0 if a
 * header over the limit ended, and for any other event.
 */
static inline uint8_t escape_stream_string_end(
    const struct escape_stream_event *event, const uint8_t *bytes, size_t taken)
{
    bool is_end = event->kind == ESCAPE_STREAM_OSC || event->kind == ESCAPE_STREAM_APC ||
                  event->kind == ESCAPE_STREAM_DCS_END || event->kind == ESCAPE_STREAM_LIMIT;
    uint8_t last = is_end && taken > 0 ? bytes[taken - 1] : 0;
    bool is_c1 = last >= 0x80 && last <= 0x9f;

    return last == 0x07 || last == 0x18 || last == 0x1a || last == 0x1b || is_c1 ? last : 0;
}

/*
 * Writes the UTF-8 of a character, as the `byte` of an event ESCAPE_STREAM_CHARACTER, to `out`, and
 * returns how many bytes it has: 1 to 4. A number that is no character is written as U+FFFD.
 */
static inline size_t escape_stream_utf8(uint32_t character, uint8_t out[4])
{
    bool is_none = character > 0x10ffff || (character >= 0xd800 && character < 0xe000);
    uint32_t c = is_none ? 0xfffd : character;
    size_t more = c < 0x80 ? 0 : c < 0x800 ? 1 : c < 0x10000 ? 2 : 3;
    static const uint8_t marks[4] = {0, 0xc0, 0xe0, 0xf0};

    for (size_t i = more; i > 0; i--, c >>= 6)
        out[i] = (uint8_t)(0x80 | (c & 0x3f));
    out[0] = (uint8_t)(marks[more] | c);
    return more + 1;
}

/*
 * Reads the first character of a text in UTF-8, as the text of an event ESCAPE_STREAM_TEXT is, to
 * `character`, and returns how many bytes it has: 1 to 4, or 0 if `length` is 0. Bytes that are no
 * UTF-8, as in a text that is cut, are U+FFFD one by one.
 */
static inline size_t escape_stream_character(
    const uint8_t *text, size_t length, uint32_t *character)
{
    static const uint32_t least[4] = {0, 0x80, 0x800, 0x10000};
    uint8_t lead = length > 0 ? text[0] : 0;
    size_t more = lead < 0xc2 ? 0 : lead < 0xe0 ? 1 : lead < 0xf0 ? 2 : lead < 0xf5 ? 3 : 0;
    uint32_t c = more == 0 ? lead : lead & (0x3fu >> more);
    bool is_whole = more < length && (more > 0 || lead < 0x80);

    for (size_t i = 1; is_whole && i <= more; i++) {
        is_whole = (text[i] & 0xc0) == 0x80;
        c = c << 6 | (text[i] & 0x3fu);
    }
    is_whole = is_whole && c >= least[more] && c <= 0x10ffff && (c < 0xd800 || c >= 0xe000);
    *character = is_whole ? c : 0xfffd;
    return length == 0 ? 0 : is_whole ? more + 1 : 1;
}

/*
 * The parameters of an event ESCAPE_STREAM_CSI, by its entries: `;` separates parameters, and `:`
 * the numbers of one.
 *
 * parameter_count   how many parameters there are: none if nothing is in their place, as in
 *                   CSI m
 * parameter         the number `part` of the parameter `index`, both counted from 0, or `otherwise`
 *                   if it is left out: so parameter(event, 0, 0, 1) is the number of lines that
 *                   CSI A goes up
 * prefix            the private prefix, one of < = > ?, or 0 if there is none
 * intermediate      the intermediate of this index, a space up to /, or 0 if there is none
 */
static inline size_t escape_stream_parameter_count(const struct escape_stream_event *event)
{
    size_t count = 1;
    bool has_some = false;

    for (size_t i = 0; i < event->count; i++) {
        const struct escape_stream_entry *entry = &event->entries[i];
        has_some |= !entry->is_byte || entry->byte == ';' || entry->byte == ':';
        count += entry->is_byte && entry->byte == ';';
    }
    return has_some ? count : 0;
}

static inline int64_t escape_stream_parameter(
    const struct escape_stream_event *event, size_t index, size_t part, int64_t otherwise)
{
    size_t parameter = 0, number = 0;

    for (size_t i = 0; i < event->count; i++) {
        const struct escape_stream_entry *entry = &event->entries[i];
        if (!entry->is_byte) {
            if (parameter == index && number == part)
                return entry->number;
        } else if (entry->byte == ';') {
            parameter++;
            number = 0;
        } else if (entry->byte == ':') {
            number++;
        }
    }
    return otherwise;
}

static inline uint8_t escape_stream_prefix(const struct escape_stream_event *event)
{
    for (size_t i = 0; i < event->count; i++) {
        const struct escape_stream_entry *entry = &event->entries[i];
        if (entry->is_byte && entry->byte >= '<' && entry->byte <= '?')
            return entry->byte;
    }
    return 0;
}

static inline uint8_t escape_stream_intermediate(
    const struct escape_stream_event *event, size_t index)
{
    for (size_t i = 0; i < event->count; i++) {
        const struct escape_stream_entry *entry = &event->entries[i];
        if (entry->is_byte && entry->byte >= ' ' && entry->byte <= '/' && index-- == 0)
            return entry->byte;
    }
    return 0;
}

/*
 * The value of a key in the text of a prompt's mark, `133;..`: a place in the text, of
 * `*value_length` bytes, or NULL if the key is not given. So keys can be read for which
 * escape_stream_read_osc has no field, as `err` and kitty's `cmdline_url`. The key "" is the part
 * without `=`, the status of `133;D;1`: NULL for `133;D`, where escape_stream_read_osc has 0. The
 * later one of two parts with one key counts.
 */
static inline const uint8_t *escape_stream_prompt_value(
    const uint8_t *text, size_t length, const char *key, size_t *value_length)
{
    const uint8_t *found = NULL;

    for (size_t part = 0, start = 0; start <= length; part++) {
        size_t end = start, equals = start, same = 0;

        while (end < length && text[end] != ';')
            end++;
        while (equals < end && text[equals] != '=')
            equals++;
        while (key[same] != 0 && start + same < equals && text[start + same] == (uint8_t)key[same])
            same++;
        /* the parts before are the number and the letter */
        if (part >= 2 && key[same] == 0 && equals == (same == 0 ? end : start + same) &&
            (same == 0 ? end > start : equals < end)) {
            size_t at = same == 0 ? start : equals + 1;
            found = text + at;
            *value_length = end - at;
        }
        start = end + 1;
    }
    return found;
}

#ifdef __cplusplus
}
#endif

#endif
