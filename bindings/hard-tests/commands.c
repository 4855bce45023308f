/* SPDX-License-Identifier: MIT */
/* The fields of commands, images and queries: their texts one after another, in room of any length;
 * and sixel images. */
#include "hard.h"
#include "escape_stream.h"

#include <string.h>

/* No command has more fields than bytes and a few. */
enum { FIELD_ROOM = STREAM_ROOM + 128, UNTOUCHED = 99 };

/* Where a call writes. */
struct room {
    struct escape_stream_osc *osc;
    struct escape_stream_field *fields;
    size_t field_room;
    uint8_t *out;
    size_t capacity;
};

static struct area values, rows, outs;
static struct escape_stream_field all_fields[FIELD_ROOM];
static uint8_t all_texts[TEXT_ROOM];

void begin_commands(void) {
    values = guarded(PAGE);
    rows = guarded(FIELD_ROOM * sizeof(struct escape_stream_field));
    outs = guarded(TEXT_ROOM);
}

static struct room room_of(size_t field_room, size_t capacity) {
    struct room room = {
        (void *)placed(&values, sizeof(struct escape_stream_osc)),
        (void *)placed(&rows, field_room * sizeof(struct escape_stream_field)),
        field_room,
        placed(&outs, capacity),
        capacity,
    };
    memset(room.osc, UNTOUCHED, sizeof *room.osc);
    return room;
}

static uint32_t read_osc(const struct room *room, struct bytes text) {
    return escape_stream_read_osc(
        text.at, text.length, room->osc, room->fields, room->field_room, room->out, room->capacity);
}

static uint32_t read_kitty(const struct room *room, struct bytes text) {
    struct escape_stream_image image;
    uint32_t status;
    memset(&image, UNTOUCHED, sizeof image);
    status = escape_stream_read_kitty(
        text.at, text.length, &image, room->fields, room->field_room, room->out, room->capacity);
    *room->osc = (struct escape_stream_osc){image.kind, image.field_count, image.text_length};
    return status;
}

static uint32_t read_tcap(const struct room *room, struct bytes text) {
    struct escape_stream_query query;
    uint32_t status;
    memset(&query, UNTOUCHED, sizeof query);
    status = escape_stream_read_tcap(
        text.at, text.length, &query, room->fields, room->field_room, room->out, room->capacity);
    *room->osc = (struct escape_stream_osc){0, query.name_count, query.text_length};
    return status;
}

/* The calls that give fields, by what they read. */
static const struct call {
    const char *name;
    uint32_t (*read)(const struct room *room, struct bytes text);
    uint32_t last_kind;
} CALLS[] = {
    [COMMANDS] = {"escape_stream_read_osc", read_osc, ESCAPE_STREAM_OSC_ITERM_POP_UNICODE_VERSION},
    [IMAGES] =
        {"escape_stream_read_kitty", read_kitty, ESCAPE_STREAM_KITTY_DELETE_BY_IMAGE_ID_RANGE},
    [QUERIES] = {"escape_stream_read_tcap", read_tcap, 0},
};
static const struct call *call;

static uint32_t run(const struct room *room, struct bytes text) {
    uint32_t status;
    at_hand.call = call->name;
    at_hand.calls++;
    status = call->read(room, lent(text));
    if (blocks != 0)
        fails("blocks were not given back", (size_t)blocks);
    return status;
}

static bool is_all(uint8_t byte, const void *at, size_t length) {
    for (size_t i = 0; i < length; i++)
        if (((const uint8_t *)at)[i] != byte)
            return false;
    return true;
}

/* Clears the written output again; then nothing but junk may be there. */
static void clear(const struct room *room, size_t fields, size_t bytes) {
    memset(room->fields, JUNK, fields * sizeof *room->fields);
    memset(room->out, JUNK, bytes);
    if (!is_all(JUNK, room->fields, room->field_room * sizeof *room->fields))
        fails("a field past those of the command was written, in room for", room->field_room);
    if (!is_all(JUNK, room->out, room->capacity))
        fails("a byte past the texts was written, in room for", room->capacity);
}

static void check_field(const struct escape_stream_field *field, size_t *length) {
    bool is_text = field->kind == ESCAPE_STREAM_VALUE_TEXT;
    if (field->name > ESCAPE_STREAM_FIELD_VERBOSITY || field->kind > ESCAPE_STREAM_VALUE_SIZE)
        fails("an unknown name or kind of a field", field->name);
    if (field->offset != (is_text ? *length : 0))
        fails("a text at another place", field->offset);
    if (field->kind != ESCAPE_STREAM_VALUE_NUMBER && field->number != 0)
        fails("a number that has no meaning", field->kind);
    if (field->kind == ESCAPE_STREAM_VALUE_NUMBER && field->length != 0)
        fails("a length that has no meaning", field->length);
    *length += is_text ? field->length : 0;
}

/* The command in as much room as it needs, as it says without room. */
static struct escape_stream_osc read_all(struct bytes text) {
    struct room room = room_of(0, 0);
    struct escape_stream_osc osc;
    size_t length = 0;
    if (run(&room, text) != ESCAPE_STREAM_DONE)
        fails("another status", text.length);
    osc = *room.osc;
    if (osc.kind > call->last_kind)
        fails("an unknown kind of a command", osc.kind);
    if (osc.field_count > FIELD_ROOM || osc.text_length > TEXT_ROOM)
        fails("more fields or texts than this program has room for", osc.field_count);
    room = room_of(osc.field_count, osc.text_length);
    if (run(&room, text) != ESCAPE_STREAM_DONE)
        fails("another status", text.length);
    for (size_t i = 0; i < osc.field_count; i++)
        check_field(&room.fields[i], &length);
    if (length != osc.text_length)
        fails("texts of another length", length);
    memcpy(all_fields, room.fields, osc.field_count * sizeof *room.fields);
    memcpy(all_texts, room.out, osc.text_length);
    clear(&room, osc.field_count, osc.text_length);
    return osc;
}

static void check_room(const struct escape_stream_osc *osc, struct bytes text) {
    struct room room = room_of(below(osc->field_count + 3), below(osc->text_length + 3));
    size_t fields = room.field_room < osc->field_count ? room.field_room : osc->field_count;
    size_t bytes = room.capacity < osc->text_length ? room.capacity : osc->text_length;
    at_hand.rooms++;
    if (run(&room, text) != ESCAPE_STREAM_DONE || room.osc->kind != osc->kind ||
        room.osc->field_count != osc->field_count || room.osc->text_length != osc->text_length)
        fails("another status, or another command, in room for", room.field_room);
    if (memcmp(room.fields, all_fields, fields * sizeof *room.fields) != 0)
        fails("other fields in room for", room.field_room);
    if (memcmp(room.out, all_texts, bytes) != 0)
        fails("other texts in room for", room.capacity);
    clear(&room, fields, bytes);
}

static void check_refusal(const struct escape_stream_osc *osc, struct bytes text) {
    struct room room = room_of(8, 64);
    size_t at = 1 + below(6), untouched;
    uint32_t status;
    memset(&untouched, UNTOUCHED, sizeof untouched);
    requests = 0;
    refused = at;
    status = run(&room, text);
    refused = 0;
    if (status == ESCAPE_STREAM_NO_MEMORY && requests >= at && room.osc->field_count == untouched) {
        at_hand.refusals++;
        clear(&room, 0, 0);
    } else if (status == ESCAPE_STREAM_DONE) {
        clear(
            &room, osc->field_count < 8 ? osc->field_count : 8,
            osc->text_length < 64 ? osc->text_length : 64);
    } else {
        fails("another status, or something written, where memory was refused", at);
    }
}

/* Whether a text has this kind and these fields. */
bool reads_as(
    enum reading as, struct bytes text, uint32_t kind, const struct escape_stream_field *fields,
    size_t count, struct bytes texts) {
    struct room room = room_of(count, texts.length);
    bool is_same;
    call = &CALLS[as];
    is_same = run(&room, text) == ESCAPE_STREAM_DONE && room.osc->kind == kind &&
              room.osc->field_count == count && room.osc->text_length == texts.length &&
              memcmp(room.fields, fields, count * sizeof *fields) == 0 &&
              memcmp(room.out, texts.at, texts.length) == 0;
    memset(room.fields, JUNK, count * sizeof *fields);
    memset(room.out, JUNK, texts.length);
    return is_same;
}

/* Checks what a text says, as what it is read. */
void check_command(enum reading as, struct bytes text) {
    struct escape_stream_osc osc;
    call = &CALLS[as];
    osc = read_all(text);
    check_room(&osc, text);
    if (one_in(4))
        check_refusal(&osc, text);
    check_written(
        as, osc.kind, all_fields, osc.field_count, (struct bytes){all_texts, osc.text_length});
}

/* Writes the sixel image of a text. */
static void write_again(const int64_t *params, size_t count, struct bytes text) {
    static struct escape_stream_sixel_item items[STREAM_ROOM];
    struct escape_stream_sixel sixel;
    if (escape_stream_read_sixel(params, count, text.at, text.length, &sixel, items, STREAM_ROOM) !=
        ESCAPE_STREAM_DONE)
        fails("another status", text.length);
    check_written_sixel(&sixel, items);
}

/* Checks the sixel image of a text: its items in room for some, and none past these. */
void check_sixel(struct bytes text) {
    const int64_t params[3] = {(int64_t)below(10), (int64_t)below(3), (int64_t)below(5)};
    struct escape_stream_sixel sixel = {0};
    struct escape_stream_sixel_item *items;
    size_t item_room = below(text.length + 3), count = below(4), written;
    at_hand.call = "escape_stream_read_sixel";
    at_hand.calls++;
    items = (void *)placed(&rows, item_room * sizeof *items);
    text = lent(text);
    if (escape_stream_read_sixel(params, count, text.at, text.length, &sixel, items, item_room) !=
        ESCAPE_STREAM_DONE)
        fails("another status", text.length);
    if (blocks != 0)
        fails("blocks were not given back", (size_t)blocks);
    if (sixel.item_count > text.length)
        fails("more items than bytes", sixel.item_count);
    written = item_room < sixel.item_count ? item_room : sixel.item_count;
    for (size_t i = 0; i < written; i++)
        if (items[i].kind > ESCAPE_STREAM_SIXEL_NEW_LINE || items[i].pixels > 63)
            fails("an unknown item", items[i].kind);
    memset(items, JUNK, written * sizeof *items);
    if (!is_all(JUNK, items, item_room * sizeof *items))
        fails("an item past those of the image was written, in room for", item_room);
    if (one_in(4))
        write_again(params, count, text);
}
