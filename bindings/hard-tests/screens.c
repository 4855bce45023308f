/* SPDX-License-Identifier: MIT */
/* The screen: what it shows of a stream does not depend on the chunks, each cell is a character, a
 * blank or a half, and refused memory ends it. */
#include "hard.h"
#include "escape_stream_screen.h"

#include <string.h>

enum { MOST_COLUMNS = 40, MOST_ROWS = 12, MOST_KEPT = 5 };

/* All that the calls give of a screen, the cells that there is no row for as zeros. */
struct all {
    struct escape_stream_screen_state state;
    struct escape_stream_cell cells[MOST_ROWS][MOST_COLUMNS];
    struct escape_stream_cell kept[MOST_KEPT][MOST_COLUMNS];
};

static struct area places, outs;
static struct all given[2];
static uint16_t columns, rows;
static size_t scrollback;

void begin_screens(void) {
    places = guarded(PAGE);
    outs = guarded(PAGE);
}

static void check_cell(const struct escape_stream_cell *cell, bool after_wide) {
    if (cell->width > 2 || cell->underline > 5 || (cell->width == 0) != after_wide)
        fails("half of a character alone", cell->width);
    if (cell->character > 0x10ffff || (cell->character == 0 && cell->first_mark != 0))
        fails("no character", cell->character);
    if (cell->character != 0 && (cell->character < 0x20 || cell->width == 0))
        fails("a character where none is", cell->character);
}

typedef uint32_t reads(
    struct escape_stream_screen *screen, size_t row, struct escape_stream_cell *cells, size_t room,
    size_t *needed);

/* Reads the cells of a row into room for some of them, and then for all. */
static uint32_t read_row(
    struct escape_stream_screen *it, reads *call, size_t row, struct escape_stream_cell *to) {
    size_t needed = 0, some = below(columns);
    struct escape_stream_cell *cells = (void *)placed(&outs, some * sizeof *cells);
    uint32_t status = call(it, row, cells, some, &needed);
    if (status != ESCAPE_STREAM_DONE)
        return status;
    if (needed != columns)
        fails("another count of cells", needed);
    cells = (void *)placed(&outs, needed * sizeof *cells);
    at_hand.calls += 2;
    status = call(it, row, cells, needed, &needed);
    memcpy(to, cells, needed * sizeof *cells);
    for (size_t i = 0; i < needed; i++)
        check_cell(&to[i], i > 0 && to[i - 1].width == 2);
    return status;
}

/* The calls that write a text or requests: this checks only where they write. */
static uint32_t read_texts(struct escape_stream_screen *it) {
    size_t needed = 0, room = below(200);
    uint32_t status =
        escape_stream_screen_text(it, below(rows), placed(&outs, room), room, &needed);
    at_hand.calls += 6;
    if (status == ESCAPE_STREAM_DONE)
        status = escape_stream_screen_title(it, placed(&outs, room), room, &needed);
    if (status == ESCAPE_STREAM_DONE)
        status = escape_stream_screen_icon_name(it, placed(&outs, room), room, &needed);
    if (status == ESCAPE_STREAM_DONE)
        status = escape_stream_screen_link(it, below(9), placed(&outs, room), room, &needed);
    if (status == ESCAPE_STREAM_DONE)
        status = escape_stream_screen_link_id(it, below(9), placed(&outs, room), room, &needed);
    if (status == ESCAPE_STREAM_DONE) {
        struct escape_stream_request *to = (void *)placed(&outs, room * sizeof *to);
        status = escape_stream_screen_requests(it, to, room, &needed);
    }
    if (status == ESCAPE_STREAM_DONE)
        status = escape_stream_screen_changed(it, placed(&outs, room), room);
    return status;
}

static uint32_t read_all(struct escape_stream_screen *it, struct all *all) {
    uint32_t status = escape_stream_screen_state_of(it, &all->state);
    if (status == ESCAPE_STREAM_DONE &&
        (all->state.cursor_row >= rows || all->state.cursor_column >= columns ||
         all->state.kept > scrollback || all->state.kept > all->state.scrolled))
        fails("a state that no screen has", all->state.cursor_row);
    for (size_t row = 0; status == ESCAPE_STREAM_DONE && row < rows; row++)
        status = read_row(it, escape_stream_screen_cells, row, all->cells[row]);
    for (size_t row = 0; status == ESCAPE_STREAM_DONE && row < all->state.kept; row++)
        status = read_row(it, escape_stream_screen_scrolled, row, all->kept[row]);
    return status;
}

/* Shows the stream in chunks. The request for memory with the number `at` is refused, where that is
 * not 0. */
static uint32_t show(struct bytes stream, size_t way, size_t at, struct all *all) {
    struct escape_stream_screen *it = (void *)placed(&places, sizeof *it);
    uint32_t status;
    memset(it, 0, sizeof *it);
    memset(all, 0, sizeof *all);
    requests = 0;
    refused = at;
    status = escape_stream_screen_begin(it, columns, rows, scrollback);
    while (stream.length > 0 && status == ESCAPE_STREAM_DONE) {
        size_t count = chunk_length(way, stream.length);
        at_hand.calls++;
        status = escape_stream_screen_feed(it, lent((struct bytes){stream.at, count}).at, count);
        if (status == ESCAPE_STREAM_DONE && one_in(16))
            status = read_texts(it);
        stream.at += count;
        stream.length -= count;
    }
    refused = 0;
    if (status == ESCAPE_STREAM_DONE)
        status = read_all(it, all);
    else if (it->is_begun)
        fails("what was refused memory goes on", at);
    escape_stream_screen_end(it);
    if (it->is_begun || blocks != 0)
        fails("what ended keeps something", (size_t)blocks);
    return status;
}

void check_screens(struct bytes stream) {
    size_t at = 1 + below(64);
    at_hand.call = "escape_stream_screen_feed";
    columns = (uint16_t)(1 + below(MOST_COLUMNS));
    rows = (uint16_t)(1 + below(MOST_ROWS));
    scrollback = below(MOST_KEPT + 1);
    if (show(stream, 0, 0, &given[0]) != ESCAPE_STREAM_DONE ||
        show(stream, 1 + below(3), 0, &given[1]) != ESCAPE_STREAM_DONE)
        fails("a screen was refused memory that was there", 0);
    given[1].state.requests = given[0].state.requests;
    if (memcmp(given[0].cells, given[1].cells, sizeof given[0].cells) != 0 ||
        memcmp(given[0].kept, given[1].kept, sizeof given[0].kept) != 0 ||
        given[0].state.cursor_row != given[1].state.cursor_row ||
        given[0].state.cursor_column != given[1].state.cursor_column ||
        given[0].state.scrolled != given[1].state.scrolled)
        fails("another screen in chunks", 0);
    if (show(stream, 0, at, &given[1]) == ESCAPE_STREAM_NO_MEMORY)
        at_hand.refusals++;
}
