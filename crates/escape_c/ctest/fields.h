/* SPDX-License-Identifier: MIT */
/*
 * Reads texts by a call of escape_stream.h that gives a kind and fields, and compares these with
 * what is wanted. Each text in every room, with guards beside it; each request for memory is
 * refused in turn.
 *
 * A file that includes it defines PROGRAM, its name, kind_name, the names of the kinds, and
 * read_text, the call.
 */
#include "memory.h"

#include <inttypes.h>

/* The first output of each such call. */
struct value {
    uint32_t kind;
    size_t field_count, text_length;
};

static uint32_t read_text(
    const uint8_t *text, size_t length, struct value *value, struct escape_stream_field *fields,
    size_t field_room, uint8_t *out, size_t capacity);
static const char *kind_name(uint32_t kind);

enum { MOST_FIELDS = 27, MOST_BYTES = 120 };

#define NAME(name) [ESCAPE_STREAM_FIELD_##name] = #name
static const char *const NAMES[] = {
    NAME(TEXT),
    NAME(PART),
    NAME(DIRECTORY),
    NAME(URI),
    NAME(IMPLICIT),
    NAME(KEY),
    NAME(VALUE),
    NAME(SELECTION),
    NAME(PALETTE_INDEX),
    NAME(DYNAMIC_COLOR),
    NAME(RED),
    NAME(GREEN),
    NAME(BLUE),
    NAME(QUERY),
    NAME(PROGRESS_STATE),
    NAME(PERCENT),
    NAME(APPLICATION),
    NAME(CLICK),
    NAME(PROMPT_KIND),
    NAME(STATUS),
    NAME(NAME),
    NAME(HIGHLIGHTED),
    NAME(CELL_HEIGHT),
    NAME(CELL_WIDTH),
    NAME(SCALE),
    NAME(SIZE),
    NAME(WIDTH_CELLS),
    NAME(WIDTH_PIXELS),
    NAME(WIDTH_PERCENT),
    NAME(HEIGHT_CELLS),
    NAME(HEIGHT_PIXELS),
    NAME(HEIGHT_PERCENT),
    NAME(PRESERVE_ASPECT_RATIO),
    NAME(INLINE),
    NAME(DO_NOT_MOVE_CURSOR),
    NAME(CONTENT),
    NAME(VERSION),
    NAME(LABEL),
    NAME(MEDIUM),
    NAME(DATA_SIZE),
    NAME(DATA_OFFSET),
    NAME(FORMAT),
    NAME(PIXEL_WIDTH),
    NAME(PIXEL_HEIGHT),
    NAME(IMAGE_ID),
    NAME(IMAGE_NUMBER),
    NAME(COMPRESSION),
    NAME(MORE_DATA_FOLLOWS),
    NAME(X),
    NAME(Y),
    NAME(WIDTH),
    NAME(HEIGHT),
    NAME(X_OFFSET),
    NAME(Y_OFFSET),
    NAME(COLUMNS),
    NAME(ROWS),
    NAME(PLACEMENT_ID),
    NAME(Z_INDEX),
    NAME(UNICODE_PLACEHOLDER),
    NAME(BASE_FRAME),
    NAME(FRAME_NUMBER),
    NAME(DURATION),
    NAME(COMPOSITION_MODE),
    NAME(BACKGROUND_PIXEL),
    NAME(TARGET_FRAME),
    NAME(SOURCE_FRAME),
    NAME(SOURCE_X),
    NAME(SOURCE_Y),
    NAME(DELETES_DATA),
    NAME(FIRST_IMAGE_ID),
    NAME(LAST_IMAGE_ID),
    NAME(VERBOSITY),
};

/* The text of a command, and its kind and fields. */
struct command {
    const char *text, *wanted;
};

/* Appends a text, of which a control and a byte FF are two digits between brackets. */
static size_t append_text(char *line, size_t at, const uint8_t *text, size_t length) {
    for (size_t i = 0; i < length; i++)
        at += (size_t)sprintf(
            line + at, text[i] < 0x20 || text[i] == 0xff ? "[%02x]" : "%c", text[i]);
    return at;
}

/* The kind and the fields of a command, as the table has them. */
static const char *
written(const struct value *value, const struct escape_stream_field *fields, const uint8_t *out) {
    static char line[1000];
    size_t at = (size_t)sprintf(line, "%s", kind_name(value->kind));
    for (size_t i = 0; i < value->field_count; i++) {
        const struct escape_stream_field *field = &fields[i];
        at += (size_t)sprintf(line + at, " %s=", NAMES[field->name]);
        if (field->kind == ESCAPE_STREAM_VALUE_NUMBER)
            at += (size_t)sprintf(line + at, "%" PRId64, field->number);
        else if (field->kind == ESCAPE_STREAM_VALUE_TEXT)
            at = append_text(line, at, out + field->offset, field->length);
        else
            at += (size_t)sprintf(line + at, "%zu", field->length);
    }
    return line;
}

/* The arguments of a call: room for fields and texts, with guards. */
struct room {
    struct value value;
    struct escape_stream_field fields[MOST_FIELDS];
    uint8_t out[MOST_BYTES];
};

static uint32_t read_into(struct room *room, const char *text, size_t field_room, size_t capacity) {
    memset(room, JUNK, sizeof *room);
    return read_text(
        (const uint8_t *)text, strlen(text), &room->value, room->fields, field_room, room->out,
        capacity);
}

/* The same command in less room: the beginnings of its fields and of their texts, and nothing past
 * these. */
static void
check_room(const struct room *whole, const char *text, size_t field_room, size_t capacity) {
    static struct room room;
    size_t fields = field_room < whole->value.field_count ? field_room : whole->value.field_count;
    size_t bytes = capacity < whole->value.text_length ? capacity : whole->value.text_length;
    wants(
        read_into(&room, text, field_room, capacity) == ESCAPE_STREAM_DONE, "another status", text,
        field_room);
    wants(
        room.value.kind == whole->value.kind &&
            room.value.field_count == whole->value.field_count &&
            room.value.text_length == whole->value.text_length,
        "another value", text, field_room);
    wants(
        memcmp(room.fields, whole->fields, fields * sizeof *room.fields) == 0, "other fields", text,
        field_room);
    wants(
        is_junk(&room.fields[fields], sizeof room.fields - fields * sizeof *room.fields),
        "a field past them", text, field_room);
    wants(memcmp(room.out, whole->out, bytes) == 0, "another text", text, capacity);
    wants(is_junk(&room.out[bytes], sizeof room.out - bytes), "a byte past it", text, capacity);
}

static void check_refusals(const char *text, const char *wanted) {
    static struct room room;
    for (unsigned long at = 1; at < 1000; at++) {
        uint32_t status;
        requests = 0;
        refused = at;
        status = read_into(&room, text, MOST_FIELDS, MOST_BYTES);
        refused = 0;
        wants(blocks == 0, "blocks are kept", text, at);
        if (requests < at) {
            wants(status == ESCAPE_STREAM_DONE, "another status", text, at);
            return;
        }
        /* A request that only makes room ahead may be refused without harm. */
        if (status == ESCAPE_STREAM_DONE)
            wants(
                strcmp(written(&room.value, room.fields, room.out), wanted) == 0, "another value",
                text, at);
        else
            wants(
                status == ESCAPE_STREAM_NO_MEMORY && is_junk(&room, sizeof room),
                "something was written", text, at);
    }
}

static void check_command(const struct command *command) {
    static struct room whole;
    wants(
        read_into(&whole, command->text, MOST_FIELDS, MOST_BYTES) == ESCAPE_STREAM_DONE,
        "another status", command->text, 0);
    wants(strcmp(written(&whole.value, whole.fields, whole.out), command->wanted) == 0,
          written(&whole.value, whole.fields, whole.out), command->text, 0);
    for (size_t fields = 0; fields <= whole.value.field_count + 2; fields++)
        check_room(&whole, command->text, fields, MOST_BYTES);
    for (size_t bytes = 0; bytes <= whole.value.text_length + 2; bytes++)
        check_room(&whole, command->text, MOST_FIELDS, bytes);
    check_refusals(command->text, command->wanted);
}

static int check_all(const struct command *commands, size_t count) {
    for (size_t i = 0; i < count; i++)
        check_command(&commands[i]);
    printf("%lu differences\n", differences);
    return differences != 0;
}
