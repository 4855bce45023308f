/* SPDX-License-Identifier: MIT */
/*
 * A terminal's screen for JavaScript: the calls of escape_stream_screen.h with places and lengths
 * of 32 bits, as calls.c has the others. They are exported by the module of the demo alone.
 */
#include "escape_stream_screen.h"
#include "exports.h"

/* JavaScript reads these by their places. */
_Static_assert(sizeof(struct escape_stream_screen) == 16, "a screen");
_Static_assert(sizeof(struct escape_stream_cell) == 40, "a cell");
_Static_assert(offsetof(struct escape_stream_cell, foreground) == 12, "its first colour");
_Static_assert(offsetof(struct escape_stream_cell, link) == 24, "its link");
_Static_assert(offsetof(struct escape_stream_cell, width) == 28, "its width");
_Static_assert(offsetof(struct escape_stream_cell, overline) == 37, "its last look");
_Static_assert(sizeof(struct escape_stream_screen_state) == 48, "a state");
_Static_assert(offsetof(struct escape_stream_screen_state, cursor_row) == 36, "the cursor");
_Static_assert(offsetof(struct escape_stream_screen_state, shown) == 41, "whether it is shown");
_Static_assert(offsetof(struct escape_stream_screen_state, reversed) == 43, "whether all is inverse");

EXPORTED(screen_begin, "(i32, i32, i32) -> (i32)");
NUMBER host_screen_begin(NUMBER it, NUMBER columns, NUMBER rows)
{
    return escape_stream_screen_begin(
        AT(struct escape_stream_screen, it), (uint16_t)columns, (uint16_t)rows, 0);
}

EXPORTED(screen_feed, "(i32, i32, i32) -> (i32)");
NUMBER host_screen_feed(NUMBER it, NUMBER bytes, NUMBER length)
{
    return escape_stream_screen_feed(AT(struct escape_stream_screen, it), BYTES(bytes), length);
}

EXPORTED(screen_state, "(i32, i32) -> (i32)");
NUMBER host_screen_state(NUMBER it, NUMBER state)
{
    return escape_stream_screen_state_of(
        AT(struct escape_stream_screen, it), AT(struct escape_stream_screen_state, state));
}

/* How many cells a row has, of which as many are written as there is room for; 0 if it has none. */
EXPORTED(screen_cells, "(i32, i32, i32, i32) -> (i32)");
NUMBER host_screen_cells(NUMBER it, NUMBER row, NUMBER cells, NUMBER room)
{
    size_t needed = 0;
    escape_stream_screen_cells(AT(struct escape_stream_screen, it), row,
                               AT(struct escape_stream_cell, cells), room, &needed);
    return (NUMBER)needed;
}

/* How many bytes the address of a link has; 0 if there is no such link. */
EXPORTED(screen_link, "(i32, i32, i32, i32) -> (i32)");
NUMBER host_screen_link(NUMBER it, NUMBER number, NUMBER out, NUMBER room)
{
    size_t needed = 0;
    escape_stream_screen_link(
        AT(struct escape_stream_screen, it), number, BYTES(out), room, &needed);
    return (NUMBER)needed;
}

EXPORTED(screen_end, "(i32) -> ()");
void host_screen_end(NUMBER it) { escape_stream_screen_end(AT(struct escape_stream_screen, it)); }
