#include "escape_stream.h"
#include "escape_stream_parser.h"
#include <stdio.h>
#include <string.h>

enum { MOST = 65536 };

/* Says how wide an image of kitty's is, where its command says so. */
static void print_image(const uint8_t *text, size_t length)
{
    struct escape_stream_image image = {0};
    struct escape_stream_field fields[24] = {{0}};
    uint8_t out[1] = {0};

    if (escape_stream_read_kitty(text, length, &image, fields, 24, out, 0) != ESCAPE_STREAM_DONE)
        return;
    for (size_t i = 0; i < image.field_count; i++)
        if (fields[i].name == ESCAPE_STREAM_FIELD_PIXEL_WIDTH)
            printf("kitty: %lld pixels wide\n", (long long)fields[i].number);
}

/* Says how large a sixel image is, and how many colours it defines. No parameter matters here. */
static void print_sixel(const uint8_t *data, size_t length)
{
    static struct escape_stream_sixel_item items[MOST];
    const int64_t params[1] = {0};
    struct escape_stream_sixel sixel = {0};
    size_t colors = 0;

    if (escape_stream_read_sixel(params, 0, data, length, &sixel, items, MOST) !=
        ESCAPE_STREAM_DONE)
        return;
    for (size_t i = 0; i < sixel.item_count; i++)
        colors += items[i].kind == ESCAPE_STREAM_SIXEL_DEFINE_RGB ||
                  items[i].kind == ESCAPE_STREAM_SIXEL_DEFINE_HSL;
    printf("sixel: %lu by %lu pixels, %zu colours\n", (unsigned long)sixel.width,
           (unsigned long)sixel.height, colors);
}

/* Puts the data of a device control string together, as much as there is room for. */
static void keep(const struct escape_stream_event *event, const uint8_t *text)
{
    static uint8_t data[MOST];
    static size_t kept;
    static bool is_sixel;

    if (event->kind == ESCAPE_STREAM_DCS) {
        is_sixel = event->byte == 'q' && event->kept == 0;
        kept = 0;
    } else if (event->kind == ESCAPE_STREAM_DCS_END) {
        if (is_sixel)
            print_sixel(data, kept);
    } else if (event->kind == ESCAPE_STREAM_DATA_BYTE) {
        if (kept < MOST)
            data[kept++] = (uint8_t)event->byte;
    } else if (event->kind == ESCAPE_STREAM_DATA) {
        size_t more = event->length < MOST - kept ? event->length : MOST - kept;
        memcpy(data + kept, text, more);
        kept += more;
    }
}

int main(void)
{
    static struct escape_stream_parser parser;
    static struct escape_stream_event event;
    static uint8_t buffer[2 * 65536], bytes[4096];
    size_t length;

    escape_stream_begin(&parser);
    while ((length = fread(bytes, 1, sizeof bytes, stdin)) > 0) {
        size_t at = 0;
        do {
            const uint8_t *text;
            size_t taken = escape_stream_next(&parser, buffer, sizeof buffer, bytes + at,
                                              length - at, &event);
            text = escape_stream_text(&event, buffer, sizeof buffer, bytes + at);
            if (event.kind == ESCAPE_STREAM_APC)
                print_image(text, event.length);
            keep(&event, text);
            at += taken;
        } while (event.kind != ESCAPE_STREAM_NONE && event.kind != ESCAPE_STREAM_FAILED);
    }
    return 0;
}
