/* SPDX-License-Identifier: MIT */
/*
 * Writes what was read by a call of escape_stream.h that gives a kind and fields, and reads it
 * again; and fields that say nothing.
 *
 * A file that includes it defines INTRODUCER, with which a text begins, and write_text, the call,
 * and all that fields.h wants.
 */
#include "fields.h"
#include "written.h"

enum { BEFORE = sizeof INTRODUCER - 1 };

static uint32_t write_text(
    const struct value *value, const struct escape_stream_field *fields, const uint8_t *texts,
    uint8_t *out, size_t capacity, size_t *needed);

static bool is_same(const struct room *room, const struct room *other) {
    return room->value.kind == other->value.kind &&
           room->value.field_count == other->value.field_count &&
           room->value.text_length == other->value.text_length &&
           memcmp(room->fields, other->fields, sizeof room->fields) == 0 &&
           memcmp(room->out, other->out, sizeof room->out) == 0;
}

/* Writes what was read. */
static uint32_t write_from(const struct room *from, uint8_t *out, size_t capacity, size_t *needed) {
    return write_text(&from->value, from->fields, from->out, out, capacity, needed);
}

/* Whether a text begins with the introducer and ends with the string terminator. */
static bool is_framed(const uint8_t *text, size_t length) {
    return length >= BEFORE + 2 && memcmp(text, INTRODUCER, BEFORE) == 0 &&
           memcmp(text + length - 2, "\x1b\\", 2) == 0;
}

/* Reads what was written. */
static bool reads_as(const struct room *wanted, const uint8_t *text, size_t length) {
    static struct room again;
    memset(&again, JUNK, sizeof again);
    return read_text(
               text + BEFORE, length - BEFORE - 2, &again.value, again.fields, MOST_FIELDS,
               again.out, MOST_BYTES) == ESCAPE_STREAM_DONE &&
           is_same(&again, wanted);
}

/* The command that was read is written in every room, and reads back as the same fields. */
static void check_written(const struct room *whole, const char *text) {
    static struct written_text all;
    if (!write_whole(&all, whole, text))
        return;
    wants(reads_as(whole, all.bytes, all.length), "other fields when read again", text, all.length);
    check_write_refusals(&all, whole, text);
}

/* Changes of each field by one are another command, or none; they are not this one. */
static void check_changed(const struct room *whole, const char *text) {
    static struct room changed;
    static uint8_t out[MOST_WRITTEN];
    for (size_t i = 0; i < whole->value.field_count; i++)
        for (unsigned which = 0; which < 5; which++) {
            size_t needed = JUNK;
            uint32_t status;
            changed = *whole;
            changed.fields[i].name += which == 0;
            changed.fields[i].kind += which == 1;
            changed.fields[i].number += which == 2;
            changed.fields[i].offset += which == 3;
            changed.fields[i].length += which == 4;
            memset(out, JUNK, sizeof out);
            status = write_from(&changed, out, sizeof out, &needed);
            if (status != ESCAPE_STREAM_DONE) {
                wants(
                    (status == ESCAPE_STREAM_NO_COMMAND || status == ESCAPE_STREAM_NOT_WRITABLE) &&
                        needed == JUNK && is_junk(out, sizeof out),
                    "a change was written", text, i);
                continue;
            }
            wants(
                is_framed(out, needed) && reads_as(&changed, out, needed),
                "a change reads otherwise", text, i);
        }
}

/* Writes a value that was read; one that is not writable is not written. */
static void check_back(const char *text, bool is_writable) {
    static struct room whole;
    read_into(&whole, text, MOST_FIELDS, MOST_BYTES);
    if (is_writable)
        check_written(&whole, text);
    else
        check_not_written(&whole, ESCAPE_STREAM_NOT_WRITABLE, text);
    check_changed(&whole, text);
}

/* Fields that say no command, or one that is not writable. */
struct refusal {
    uint32_t kind;
    struct escape_stream_field fields[3];
    size_t count;
    const char *text;
    uint32_t wanted;
};
#define NUMBER(name, number) {ESCAPE_STREAM_FIELD_##name, ESCAPE_STREAM_VALUE_NUMBER, number, 0, 0}
#define TEXT(name, offset, length)                                                                 \
    { ESCAPE_STREAM_FIELD_##name, ESCAPE_STREAM_VALUE_TEXT, 0, offset, length }

static void check_no_commands(const struct refusal *refusals, size_t count) {
    for (size_t i = 0; i < count; i++) {
        struct value value = {refusals[i].kind, refusals[i].count, strlen(refusals[i].text)};
        uint8_t out[MOST_WRITTEN];
        size_t needed = JUNK;
        memset(out, JUNK, sizeof out);
        wants(
            write_text(
                &value, refusals[i].fields, (const uint8_t *)refusals[i].text, out, sizeof out,
                &needed) == refusals[i].wanted,
            "another status", "refusal", i);
        wants(
            needed == JUNK && is_junk(out, sizeof out) && blocks == 0, "something was written",
            "refusal", i);
    }
}
