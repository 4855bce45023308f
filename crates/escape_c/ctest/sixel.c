/* SPDX-License-Identifier: MIT */
/*
 * Reads sixel images by escape_stream.h, compares them with what is wanted, and writes them again.
 *
 *     sixel
 *
 * Each image in every room, with guards beside it; each request for memory is refused in turn.
 * Prints a line for each difference; the status is 1 where there is one. Link it with
 * -Wl,--wrap=malloc,--wrap=realloc,--wrap=free, by which it counts, refuses, and sees that all was
 * given back.
 */
#define PROGRAM "sixel"
#include "memory.h"

#include <inttypes.h>

enum { MOST_ITEMS = 24, MOST_PARAMETERS = 3 };

/* The parameters and the data of an image, and what it is. */
static const struct image {
    int64_t params[MOST_PARAMETERS];
    size_t count;
    const char *text, *wanted;
} IMAGES[] = {
    {{0}, 0, "", "2:1 0x0"},
    {{9, 1, 3}, 3, "~", "1:1 1x6 transparent grid 3 | 63"},
    {{2, 0}, 2, "?@A", "5:1 3x6 | 0 1 2"},
    {{-1, 2, INT64_MIN}, 3, "", "2:1 0x0 grid -9223372036854775808"},
    {{0}, 0, "!14@!@!3?", "2:1 18x6 | 14*1 1*1 3*0"},
    {{0}, 0, "#1@#1;2;100;0;50~$-?", "2:1 2x12 | #1 1 #1=ff007f 63 $ - 0"},
    {{0}, 0, "#7;1;120;50;60~", "2:1 1x6 | #7=120,50,60 63"},
    {{0}, 0, "#65535;1;65535;255;255#0", "2:1 0x0 | #65535=65535,255,255 #0"},
    {{0}, 0, "\"4;3;10;20~~", "4:3 10x20 width 10 height 20 | 63 63"},
    {{0}, 0, "\"1~", "1:1 1x6 | 63"},
    {{0}, 0, "\"1;1;4294967295;1~", "1:1 1x6 | 63"},
    {{0}, 0, "!4294967295~!9~", "2:1 4294967295x6 | 4294967295*63 9*63"},
    {{0}, 0, "\x01 5;x", "2:1 1x6 | 57"},
};

static size_t append_item(char *line, const struct escape_stream_sixel_item *it) {
    switch (it->kind) {
    case ESCAPE_STREAM_SIXEL_PIXELS:
        return (size_t)sprintf(line, it->count == 1 ? " %u" : " ?", it->pixels);
    case ESCAPE_STREAM_SIXEL_REPEAT:
        return (size_t)sprintf(line, " %" PRIu32 "*%u", it->count, it->pixels);
    case ESCAPE_STREAM_SIXEL_DEFINE_RGB:
        return (size_t)sprintf(line, " #%u=%02x%02x%02x", it->color, it->red, it->green, it->blue);
    case ESCAPE_STREAM_SIXEL_DEFINE_HSL:
        return (size_t)sprintf(
            line, " #%u=%u,%u,%u", it->color, it->hue, it->lightness, it->saturation);
    case ESCAPE_STREAM_SIXEL_SELECT:
        return (size_t)sprintf(line, " #%u", it->color);
    default:
        return (size_t)sprintf(line, it->kind == ESCAPE_STREAM_SIXEL_CARRIAGE_RETURN ? " $" : " -");
    }
}

/* The arguments of a call: room for items, with guards. */
struct room {
    struct escape_stream_sixel sixel;
    struct escape_stream_sixel_item items[MOST_ITEMS];
};

/* An image as the table has it. */
static const char *written(const struct room *room) {
    static char line[1000];
    const struct escape_stream_sixel *it = &room->sixel;
    size_t at = (size_t)sprintf(
        line, "%" PRId64 ":%" PRId64 " %" PRIu32 "x%" PRIu32, it->pan, it->pad, it->width,
        it->height);
    if (it->background_is_transparent)
        at += (size_t)sprintf(line + at, " transparent");
    if (it->has_grid_size)
        at += (size_t)sprintf(line + at, " grid %" PRId64, it->grid_size);
    if (it->has_pixel_width)
        at += (size_t)sprintf(line + at, " width %" PRIu32, it->pixel_width);
    if (it->has_pixel_height)
        at += (size_t)sprintf(line + at, " height %" PRIu32, it->pixel_height);
    if (it->item_count > 0)
        at += (size_t)sprintf(line + at, " |");
    for (size_t i = 0; i < it->item_count; i++)
        at += append_item(line + at, &room->items[i]);
    return line;
}

static uint32_t read_into(struct room *room, const struct image *image, size_t item_room) {
    memset(room, JUNK, sizeof *room);
    return escape_stream_read_sixel(
        image->params, image->count, (const uint8_t *)image->text, strlen(image->text),
        &room->sixel, room->items, item_room);
}

/* The same image in less room: the beginning of its items, and nothing past these. */
static void check_room(const struct room *whole, const struct image *image, size_t item_room) {
    static struct room room;
    size_t items = item_room < whole->sixel.item_count ? item_room : whole->sixel.item_count;
    wants(
        read_into(&room, image, item_room) == ESCAPE_STREAM_DONE, "another status", image->text,
        item_room);
    wants(
        room.sixel.item_count == whole->sixel.item_count, "another count", image->text, item_room);
    for (size_t i = 0; i < items; i++) {
        char one[100], other[100];
        append_item(one, &room.items[i]);
        append_item(other, &whole->items[i]);
        wants(strcmp(one, other) == 0, "another item", image->text, i);
    }
    wants(
        is_junk(&room.items[items], sizeof room.items - items * sizeof *room.items),
        "an item past them", image->text, item_room);
}

static void check_refusals(const struct image *image) {
    static struct room room;
    for (unsigned long at = 1; at < 1000; at++) {
        uint32_t status;
        requests = 0;
        refused = at;
        status = read_into(&room, image, MOST_ITEMS);
        refused = 0;
        wants(blocks == 0, "blocks are kept", image->text, at);
        if (status == ESCAPE_STREAM_DONE)
            wants(strcmp(written(&room), image->wanted) == 0, "another image", image->text, at);
        else
            wants(
                status == ESCAPE_STREAM_NO_MEMORY && is_junk(&room, sizeof room),
                "something was written", image->text, at);
        if (requests < at)
            return;
    }
}

#include "written.h"

static uint32_t write_from(const struct room *from, uint8_t *out, size_t capacity, size_t *needed) {
    return escape_stream_write_sixel(
        &from->sixel, from->items, from->sixel.item_count, out, capacity, needed);
}

static bool is_framed(const uint8_t *text, size_t length) {
    return length >= 5 && memcmp(text, "\x1bP", 2) == 0 &&
           memcmp(text + length - 2, "\x1b\\", 2) == 0;
}

/* Reads what was written: the numbers between `ESC P` and `q`, an empty one being 0, and the data
 * between `q` and `ESC \`. */
static void read_again(struct room *room, const uint8_t *text, size_t length) {
    int64_t params[MOST_PARAMETERS + 1] = {0};
    size_t at = 2, count = text[2] != 'q';
    for (; text[at] != 'q' && count <= MOST_PARAMETERS; at++)
        if (text[at] == ';')
            count++;
        else
            params[count - 1] = 10 * params[count - 1] + text[at] - '0';
    memset(room, JUNK, sizeof *room);
    escape_stream_read_sixel(
        params, count, text + at + 1, length - at - 3, &room->sixel, room->items, MOST_ITEMS);
}

/* The image that was read is written in every room, and reads back as the same. */
static void check_written(const struct room *whole, const char *text, const char *wanted) {
    static struct written_text all;
    static struct room again;
    if (!write_whole(&all, whole, text))
        return;
    read_again(&again, all.bytes, all.length);
    wants(strcmp(written(&again), wanted) == 0, written(&again), text, all.length);
    check_write_refusals(&all, whole, text);
}

/* Values that no image has, and those of images that are not writable. */
static void check_no_images(void) {
    static struct room room;
    struct escape_stream_sixel_item *item = &room.items[0];
    static const struct room plain = {
        {.pan = 1, .pad = 1, .item_count = 1},
        {{.kind = ESCAPE_STREAM_SIXEL_PIXELS, .count = 1, .pixels = 63}}};
#define CHECK(change, wanted)                                                                      \
    (room = plain, change, check_not_written(&room, ESCAPE_STREAM_##wanted, #change))
    CHECK(item->kind = 7, NO_COMMAND);
    CHECK(item->count = 2, NO_COMMAND);
    CHECK(item->color = 1, NO_COMMAND);
    CHECK(item->red = 1, NO_COMMAND);
    CHECK(item->saturation = 1, NO_COMMAND);
    CHECK((item->kind = ESCAPE_STREAM_SIXEL_NEW_LINE, item->count = 0), NO_COMMAND);
    CHECK(room.sixel.grid_size = 1, NO_COMMAND);
    CHECK(room.sixel.pixel_width = 1, NO_COMMAND);
    CHECK(room.sixel.pixel_height = 1, NO_COMMAND);
    CHECK(item->pixels = 64, NOT_WRITABLE);
    CHECK(room.sixel.pan = -1, NOT_WRITABLE);
    CHECK(room.sixel.pad = INT64_MIN, NOT_WRITABLE);
    CHECK(room.sixel.has_pixel_width = true, NOT_WRITABLE);
    CHECK(room.sixel.has_pixel_height = true, NOT_WRITABLE);
    CHECK((room.sixel.has_grid_size = true, room.sixel.grid_size = -1), NOT_WRITABLE);
    CHECK((room.sixel.has_pixel_width = room.sixel.has_pixel_height = true,
           room.sixel.pixel_width = room.sixel.pixel_height = 10001), NOT_WRITABLE);
    CHECK(
        (*item =
             (struct escape_stream_sixel_item){.kind = ESCAPE_STREAM_SIXEL_DEFINE_RGB, .green = 1}),
        NOT_WRITABLE);
    /* Values that follow from the rest are not looked at. */
    room = plain;
    room.sixel.width = room.sixel.height = 7;
    check_written(&room, "a width and a height", "1:1 1x6 | 63");
}

int main(void) {
    static struct room whole;
    for (size_t i = 0; i < sizeof IMAGES / sizeof *IMAGES; i++) {
        wants(
            read_into(&whole, &IMAGES[i], MOST_ITEMS) == ESCAPE_STREAM_DONE, "another status",
            IMAGES[i].text, 0);
        wants(strcmp(written(&whole), IMAGES[i].wanted) == 0, written(&whole), IMAGES[i].text, i);
        wants(
            whole.sixel.item_count <= strlen(IMAGES[i].text), "more items than bytes",
            IMAGES[i].text, i);
        for (size_t items = 0; items <= whole.sixel.item_count + 2; items++)
            check_room(&whole, &IMAGES[i], items);
        check_refusals(&IMAGES[i]);
        if (whole.sixel.has_grid_size && whole.sixel.grid_size < 0)
            check_not_written(&whole, ESCAPE_STREAM_NOT_WRITABLE, IMAGES[i].text);
        else
            check_written(&whole, IMAGES[i].text, IMAGES[i].wanted);
    }
    check_no_images();
    printf("%lu differences\n", differences);
    return differences != 0;
}
