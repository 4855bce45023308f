/* SPDX-License-Identifier: MIT */
/*
 * The exports of the module: the calls of the library with places and lengths of 32 bits, which are
 * numbers in JavaScript. A memory of 32 bits has no others.
 */
#include "escape_stream.h"
#include "events.h"
#include "exports.h"
#include "heap.h"

/* The structs that JavaScript reads and writes by their places. */
_Static_assert(sizeof(struct escape_stream_filter_state) == 16, "a filter");
_Static_assert(sizeof(struct escape_stream_sanitizer) == 16, "a sanitizer");
_Static_assert(sizeof(struct escape_stream_sanitizer_options) == 64, "its options");
_Static_assert(offsetof(struct escape_stream_sanitizer_options, limit) == 8, "their limit");
_Static_assert(offsetof(struct escape_stream_sanitizer_options, allowed) == 16, "their groups");
_Static_assert(offsetof(struct escape_stream_sanitizer_options, framing) == 28, "their framing");
_Static_assert(offsetof(struct escape_stream_sanitizer_options, encoding) == 40, "their encoding");
_Static_assert(offsetof(struct escape_stream_sanitizer_options, account) == 56, "their account");
_Static_assert(sizeof(struct escape_stream_account) == 64, "an account");
_Static_assert(offsetof(struct escape_stream_account, left_out) == 32, "what did not pass");
_Static_assert(offsetof(struct escape_stream_account, length) == 56, "the length");
_Static_assert(sizeof(struct escape_stream_html) == 16, "a page");
_Static_assert(sizeof(struct escape_stream_normaliser) == 16, "a normaliser");
_Static_assert(sizeof(struct escape_stream_function_info) == 98, "a function");
_Static_assert(offsetof(struct escape_stream_function_info, phrase) == 16, "its phrase");
_Static_assert(offsetof(struct escape_stream_function_info, changes_screen) == 96, "its first flag");
_Static_assert(offsetof(struct escape_stream_function_info, is_answered) == 97, "its second flag");
_Static_assert(sizeof(struct escape_stream_field) == 32, "a field");
_Static_assert(offsetof(struct escape_stream_field, kind) == 4, "what it holds");
_Static_assert(offsetof(struct escape_stream_field, number) == 8, "its number");
_Static_assert(offsetof(struct escape_stream_field, offset) == 16, "where its text begins");
_Static_assert(offsetof(struct escape_stream_field, length) == 24, "and its length");
_Static_assert(sizeof(struct escape_stream_osc) == 24, "a command");
_Static_assert(offsetof(struct escape_stream_osc, field_count) == 8, "its fields");
_Static_assert(offsetof(struct escape_stream_osc, text_length) == 16, "their texts");
_Static_assert(sizeof(struct escape_stream_image) == 24, "an image");
_Static_assert(offsetof(struct escape_stream_image, field_count) == 8, "its fields");
_Static_assert(offsetof(struct escape_stream_image, text_length) == 16, "their texts");
_Static_assert(sizeof(struct escape_stream_query) == 16, "a query");
_Static_assert(offsetof(struct escape_stream_query, text_length) == 8, "its texts");
_Static_assert(sizeof(struct escape_stream_sixel_item) == 20, "an item");
_Static_assert(offsetof(struct escape_stream_sixel_item, count) == 4, "how often it comes");
_Static_assert(offsetof(struct escape_stream_sixel_item, color) == 8, "its colour");
_Static_assert(offsetof(struct escape_stream_sixel_item, hue) == 10, "its hue");
_Static_assert(offsetof(struct escape_stream_sixel_item, pixels) == 12, "its pixels");
_Static_assert(offsetof(struct escape_stream_sixel_item, red) == 13, "red, green and blue");
_Static_assert(offsetof(struct escape_stream_sixel_item, lightness) == 16, "lightness");
_Static_assert(offsetof(struct escape_stream_sixel_item, saturation) == 17, "saturation");
_Static_assert(sizeof(struct escape_stream_sixel) == 56, "a sixel image");
_Static_assert(offsetof(struct escape_stream_sixel, pad) == 8, "its second unit");
_Static_assert(offsetof(struct escape_stream_sixel, grid_size) == 16, "its grid");
_Static_assert(offsetof(struct escape_stream_sixel, pixel_width) == 24, "its size as declared");
_Static_assert(offsetof(struct escape_stream_sixel, width) == 32, "its size");
_Static_assert(offsetof(struct escape_stream_sixel, has_grid_size) == 40, "its flags");
_Static_assert(offsetof(struct escape_stream_sixel, background_is_transparent) == 43, "the last");
_Static_assert(offsetof(struct escape_stream_sixel, item_count) == 48, "its items");

EXPORTED(take, "(i32) -> (i32)");
EXPORTED(give, "(i32) -> ()");
NUMBER host_take(NUMBER length) { return (NUMBER)(size_t)heap_take(length); }
void host_give(NUMBER at) { heap_give(BYTES(at)); }

/* The four calls that a filter, a sanitizer, a page and a normaliser have in common. */
#define IN_CHUNKS(name, type)                                                              \
    EXPORTED(name##_feed, "(i32, i32, i32) -> (i32)");                                     \
    EXPORTED(name##_finish, "(i32) -> (i32)");                                             \
    EXPORTED(name##_output, "(i32, i32, i32, i32) -> (i32)");                              \
    EXPORTED(name##_end, "(i32) -> ()");                                                   \
    NUMBER host_##name##_feed(NUMBER it, NUMBER bytes, NUMBER length)                      \
    {                                                                                      \
        return escape_stream_##name##_feed(AT(type, it), BYTES(bytes), length);            \
    }                                                                                      \
    NUMBER host_##name##_finish(NUMBER it)                                                 \
    {                                                                                      \
        return escape_stream_##name##_finish(AT(type, it));                                \
    }                                                                                      \
    NUMBER host_##name##_output(NUMBER it, NUMBER from, NUMBER out, NUMBER room)           \
    {                                                                                      \
        return (NUMBER)escape_stream_##name##_output(AT(type, it), from, BYTES(out), room); \
    }                                                                                      \
    void host_##name##_end(NUMBER it) { escape_stream_##name##_end(AT(type, it)); }

IN_CHUNKS(filter, struct escape_stream_filter_state)
IN_CHUNKS(sanitizer, struct escape_stream_sanitizer)
IN_CHUNKS(html, struct escape_stream_html)
IN_CHUNKS(normal, struct escape_stream_normaliser)

EXPORTED(filter_begin, "(i32, i32, i32) -> (i32)");
NUMBER host_filter_begin(NUMBER it, NUMBER policy, NUMBER limit)
{
    return escape_stream_filter_begin(AT(struct escape_stream_filter_state, it), policy, limit);
}

EXPORTED(sanitizer_begin, "(i32, i32) -> (i32)");
NUMBER host_sanitizer_begin(NUMBER it, NUMBER options)
{
    return escape_stream_sanitizer_begin(AT(struct escape_stream_sanitizer, it),
                                         AT(struct escape_stream_sanitizer_options, options));
}

EXPORTED(sanitizer_account, "(i32, i32) -> (i32)");
NUMBER host_sanitizer_account(NUMBER it, NUMBER account)
{
    return escape_stream_sanitizer_account(AT(struct escape_stream_sanitizer, it),
                                           AT(struct escape_stream_account, account));
}

EXPORTED(html_begin, "(i32, i32, i32, i32) -> (i32)");
NUMBER host_html_begin(NUMBER it, NUMBER per_line, NUMBER is_inline, NUMBER limit)
{
    return escape_stream_html_begin(AT(struct escape_stream_html, it), per_line != 0,
                                    is_inline != 0, limit);
}

EXPORTED(normal_begin, "(i32, i32) -> (i32)");
NUMBER host_normal_begin(NUMBER it, NUMBER limit)
{
    return escape_stream_normal_begin(AT(struct escape_stream_normaliser, it), limit);
}

EXPORTED(function, "(i32, i32, i32, i32, i32) -> (i32)");
NUMBER host_function(NUMBER prefix, NUMBER intermediate, NUMBER final, NUMBER count, NUMBER out)
{
    return escape_stream_function((uint8_t)prefix, (uint8_t)intermediate, (uint8_t)final, count,
                                  AT(struct escape_stream_function_info, out));
}

EXPORTED(escape_function, "(i32, i32, i32) -> (i32)");
NUMBER host_escape_function(NUMBER intermediate, NUMBER final, NUMBER out)
{
    return escape_stream_escape_function((uint8_t)intermediate, (uint8_t)final,
                                         AT(struct escape_stream_function_info, out));
}

EXPORTED(control_function, "(i32, i32) -> (i32)");
NUMBER host_control_function(NUMBER code, NUMBER out)
{
    return escape_stream_control_function(
        (uint8_t)code, AT(struct escape_stream_function_info, out));
}

/* A call that reads fields of a text. */
#define READS(name, type)                                                                      \
    EXPORTED(read_##name, "(i32, i32, i32, i32, i32, i32, i32) -> (i32)");                     \
    NUMBER host_read_##name(NUMBER text, NUMBER length, NUMBER value, NUMBER fields,           \
                            NUMBER field_room, NUMBER out, NUMBER room)                        \
    {                                                                                          \
        return escape_stream_read_##name(BYTES(text), length, AT(type, value),                 \
                                         AT(struct escape_stream_field, fields), field_room,   \
                                         BYTES(out), room);                                    \
    }

READS(osc, struct escape_stream_osc)
READS(kitty, struct escape_stream_image)
READS(tcap, struct escape_stream_query)

EXPORTED(read_sixel, "(i32, i32, i32, i32, i32, i32, i32) -> (i32)");
NUMBER host_read_sixel(NUMBER params, NUMBER count, NUMBER text, NUMBER length, NUMBER sixel,
                       NUMBER items, NUMBER room)
{
    return escape_stream_read_sixel(AT(int64_t, params), count, BYTES(text), length,
                                    AT(struct escape_stream_sixel, sixel),
                                    AT(struct escape_stream_sixel_item, items), room);
}

/* Where JavaScript finds the events of a call. */
_Static_assert(offsetof(struct events, records) == 16, "the records");
_Static_assert(offsetof(struct events, text) == 16 + 4 * WORDS, "the text");

EXPORTED(events_size, "() -> (i32)");
NUMBER host_events_size(void) { return sizeof(struct events); }

EXPORTED(begin, "(i32) -> ()");
void host_begin(NUMBER it)
{
    struct events *events = AT(struct events, it);
    __builtin_memset(&events->parser, 0, sizeof events->parser);
    __builtin_memset(&events->event, 0, sizeof events->event);
    escape_stream_begin(&events->parser);
}

EXPORTED(next, "(i32, i32, i32, i32, i32) -> ()");
void host_next(NUMBER it, NUMBER buffer, NUMBER size, NUMBER bytes, NUMBER length)
{
    next_events(AT(struct events, it), BYTES(buffer), size, BYTES(bytes), length);
}

EXPORTED(is_ground, "(i32) -> (i32)");
NUMBER host_is_ground(NUMBER it)
{
    return escape_stream_is_ground(&AT(struct events, it)->parser);
}
