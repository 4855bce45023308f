/* SPDX-License-Identifier: MIT */
/* The calls that write what was read: what they write, in room of each length, reads back as it. */
#include "hard.h"
#include "escape_stream.h"

#include <string.h>

enum { EACH_ROOM_UP_TO = 24, EACH_ROOM_OF_SOME = 2000, UNTOUCHED = 99, MOST_PARAMETERS = 3 };

/* A value to write: fields of a command, an image or a query, or a sixel image and its items. */
struct value {
    uint32_t (*write)(const struct value *value, uint8_t *out, size_t capacity, size_t *needed);
    uint32_t kind;
    size_t count;
    const struct escape_stream_field *fields;
    struct bytes texts;
    const struct escape_stream_sixel *sixel;
    const struct escape_stream_sixel_item *items;
};

static struct area outs, numbers, rows, values, texts;
static uint8_t whole[TEXT_ROOM];

void begin_writes(void) {
    outs = guarded(TEXT_ROOM);
    numbers = guarded(PAGE);
    rows = guarded((STREAM_ROOM + 128) * sizeof(struct escape_stream_field));
    values = guarded(PAGE);
    texts = guarded(TEXT_ROOM);
}

static uint32_t write_osc(const struct value *it, uint8_t *out, size_t capacity, size_t *needed) {
    return escape_stream_write_osc(
        it->kind, it->fields, it->count, it->texts.at, it->texts.length, out, capacity, needed);
}

static uint32_t write_kitty(const struct value *it, uint8_t *out, size_t capacity, size_t *needed) {
    return escape_stream_write_kitty(
        it->kind, it->fields, it->count, it->texts.at, it->texts.length, out, capacity, needed);
}

static uint32_t write_tcap(const struct value *it, uint8_t *out, size_t capacity, size_t *needed) {
    return escape_stream_write_tcap(
        it->fields, it->count, it->texts.at, it->texts.length, out, capacity, needed);
}

static uint32_t write_sixel(const struct value *it, uint8_t *out, size_t capacity, size_t *needed) {
    return escape_stream_write_sixel(it->sixel, it->items, it->count, out, capacity, needed);
}

/* The calls, by what they write, and with what that begins. */
static const struct call {
    const char *name, *begins;
    uint32_t (*write)(const struct value *value, uint8_t *out, size_t capacity, size_t *needed);
} CALLS[] = {
    [COMMANDS] = {"escape_stream_write_osc", "\x1b]", write_osc},
    [IMAGES] = {"escape_stream_write_kitty", "\x1b_", write_kitty},
    [QUERIES] = {"escape_stream_write_tcap", "\x1bP+q", write_tcap},
};

static bool is_junk(const uint8_t *bytes, size_t length) {
    for (size_t i = 0; i < length; i++)
        if (bytes[i] != JUNK)
            return false;
    return true;
}

/* Writes into so much room, of which `*length` bytes are then needed. */
static uint32_t run(const struct value *value, uint8_t *out, size_t capacity, size_t *length) {
    size_t *needed = (void *)placed(&numbers, sizeof *needed);
    uint32_t status;
    *needed = UNTOUCHED;
    at_hand.calls++;
    status = value->write(value, out, capacity, needed);
    *length = *needed;
    if (blocks != 0)
        fails("blocks were not given back", (size_t)blocks);
    return status;
}

/* In room for so many bytes as many are written, and nothing else. */
static void check_room(const struct value *value, size_t length, size_t capacity) {
    uint8_t *out = placed(&outs, capacity);
    size_t needed, fits = capacity < length ? capacity : length;
    at_hand.rooms++;
    if (run(value, out, capacity, &needed) != ESCAPE_STREAM_DONE || needed != length)
        fails("another status, or another length is needed, in room for", capacity);
    if (memcmp(out, whole, fits) != 0)
        fails("other bytes in room for", capacity);
    memset(out, JUNK, fits);
    if (!is_junk(out, capacity))
        fails("a byte past the text was written in room for", capacity);
}

static void check_rooms(const struct value *value, size_t length) {
    bool has_all = length <= EACH_ROOM_UP_TO || (length <= EACH_ROOM_OF_SOME && one_in(64));
    for (size_t capacity = 0; has_all && capacity <= length + 1; capacity++)
        check_room(value, length, capacity);
    if (has_all)
        return;
    check_room(value, length, 0);
    check_room(value, length, below(length));
    check_room(value, length, length - 1);
    check_room(value, length, length + 1 + below(8));
}

/* Where a request for memory is refused, nothing is written. */
static void check_refusal(const struct value *value) {
    uint8_t *out = placed(&outs, EACH_ROOM_UP_TO);
    size_t needed, at = 1 + below(12);
    uint32_t status;
    requests = 0;
    refused = at;
    status = run(value, out, EACH_ROOM_UP_TO, &needed);
    refused = 0;
    if (status == ESCAPE_STREAM_NO_MEMORY && requests >= at && needed == UNTOUCHED &&
        is_junk(out, EACH_ROOM_UP_TO))
        at_hand.refusals++;
    else if (status != ESCAPE_STREAM_DONE)
        fails("another status, or something written, where memory was refused", at);
    memset(out, JUNK, EACH_ROOM_UP_TO);
}

/* Writes all to `whole`, and in other rooms. Returns the length, or 0 where it is not writable,
 * which is then written nowhere. */
static size_t check_all(const struct value *value, bool may_refuse) {
    size_t length;
    uint32_t status = run(value, outs.at, outs.size, &length);
    if (may_refuse && status == ESCAPE_STREAM_NOT_WRITABLE && length == UNTOUCHED &&
        is_junk(outs.at, PAGE))
        return 0;
    if (status != ESCAPE_STREAM_DONE || length > outs.size)
        fails("another status of what was read", status);
    memcpy(whole, outs.at, length);
    memset(outs.at, JUNK, length);
    if (!is_junk(outs.at, length + PAGE < outs.size ? length + PAGE : outs.size))
        fails("a byte past the text was written, which has", length);
    check_rooms(value, length);
    if (one_in(4))
        check_refusal(value);
    return length;
}

/* Whether a text begins and ends as it has to. */
static void check_frame(size_t length, const char *begins) {
    size_t first = strlen(begins);
    if (length < first + 2 || memcmp(whole, begins, first) != 0 ||
        memcmp(whole + length - 2, "\x1b\\", 2) != 0)
        fails("no string of its kind", length);
    for (size_t i = first; i < length - 2; i++)
        if (whole[i] < 0x20)
            fails("a control inside a string", i);
}

/* Writes fields that were read, and reads what was written. */
void check_written(
    enum reading as, uint32_t kind, const struct escape_stream_field *fields, size_t count,
    struct bytes text) {
    const struct call *call = &CALLS[as];
    size_t size = count * sizeof *fields, first = strlen(call->begins), length;
    struct escape_stream_field *lent_fields = (void *)placed(&rows, size);
    struct value value = {call->write, kind, count, lent_fields, lent(text), NULL, NULL};
    if (as == IMAGES && kind == ESCAPE_STREAM_KITTY_NONE)
        return;
    at_hand.call = call->name;
    memcpy(lent_fields, fields, size);
    length = check_all(&value, as != QUERIES);
    if (memcmp(lent_fields, fields, size) != 0)
        fails("fields that are lent were written", count);
    if (length == 0)
        return;
    check_frame(length, call->begins);
    if (!reads_as(as, (struct bytes){whole + first, length - first - 2}, kind, fields, count, text))
        fails("what was written reads otherwise", length);
}

static bool is_same_item(
    const struct escape_stream_sixel_item *one, const struct escape_stream_sixel_item *other) {
    return one->kind == other->kind && one->count == other->count && one->color == other->color &&
           one->hue == other->hue && one->pixels == other->pixels && one->red == other->red &&
           one->green == other->green && one->blue == other->blue &&
           one->lightness == other->lightness && one->saturation == other->saturation;
}

static bool
is_same_sixel(const struct escape_stream_sixel *one, const struct escape_stream_sixel *other) {
    return one->pan == other->pan && one->pad == other->pad &&
           one->has_grid_size == other->has_grid_size && one->grid_size == other->grid_size &&
           one->has_pixel_width == other->has_pixel_width &&
           one->pixel_width == other->pixel_width &&
           one->has_pixel_height == other->has_pixel_height &&
           one->pixel_height == other->pixel_height && one->width == other->width &&
           one->height == other->height &&
           one->background_is_transparent == other->background_is_transparent &&
           one->item_count == other->item_count;
}

/* Writes an image that was read, and reads what was written. */
void check_written_sixel(
    const struct escape_stream_sixel *sixel, const struct escape_stream_sixel_item *items) {
    static struct escape_stream_sixel_item again_items[STREAM_ROOM];
    struct escape_stream_sixel *lent_sixel = (void *)placed(&values, sizeof *sixel), again = {0};
    struct escape_stream_sixel_item *lent_items =
        (void *)placed(&texts, sixel->item_count * sizeof *items);
    struct value value = {write_sixel, 0,          sixel->item_count, NULL,
                          {NULL, 0},   lent_sixel, lent_items};
    int64_t params[MOST_PARAMETERS] = {0};
    size_t length, at = 2, count = 1;
    at_hand.call = "escape_stream_write_sixel";
    *lent_sixel = *sixel;
    memcpy(lent_items, items, sixel->item_count * sizeof *items);
    length = check_all(&value, false);
    check_frame(length, "\x1bP");
    for (; at < length && whole[at] != 'q'; at++)
        if (whole[at] == ';' && count < MOST_PARAMETERS)
            count++;
        else
            params[count - 1] = 10 * params[count - 1] + whole[at] - '0';
    if (escape_stream_read_sixel(
            params, count, whole + at + 1, length - at - 3, &again, again_items, STREAM_ROOM) !=
            ESCAPE_STREAM_DONE ||
        !is_same_sixel(&again, sixel))
        fails("an image that was written reads otherwise", length);
    for (size_t i = 0; i < sixel->item_count; i++)
        if (!is_same_item(&again_items[i], &items[i]))
            fails("an item of an image that was written reads otherwise", i);
}
