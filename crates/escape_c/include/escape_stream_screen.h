/* SPDX-License-Identifier: MIT */
/*
 * escape_stream_screen.h - a terminal's screen, from the bytes that a program writes to it
 *
 * A screen takes a stream in chunks and has, after each, what a terminal of its size shows: rows of
 * cells with looks and links, the cursor, the title of the window, the rows that were scrolled off,
 * and what the stream asked for. It draws nothing, reads no keys and answers nobody: that is the
 * caller's.
 *
 *     cc program.c $(pkg-config --cflags --libs escape_stream)
 *
 * After any stream the cells, the text of a row, the title and the cursor are proved to be those of
 * the definition of crates/esc_terminal, which is in the terms of ECMA-48, of DEC's manual of the
 * VT510 and of xterm's "Control Sequences". Its page says which functions it follows. The head of
 * escape_stream.h says what a caller owes; `cells`, `requests` and `state` are as `out` there.
 * The calls of one screen are made one after another, in whatever threads, as those of a filter.
 *
 * The statuses are those of escape_stream.h. After ESCAPE_STREAM_NO_MEMORY, which says that a
 * request for memory was refused, a screen has ended, as by escape_stream_screen_end: it gave back
 * what it took, and each call but escape_stream_screen_begin says ESCAPE_STREAM_NOT_BEGUN. After
 * either nothing was written but by escape_stream_screen_changed.
 *
 * Example: what a program left on the screen, as plain text.
 *
 *     struct escape_stream_screen screen = ESCAPE_STREAM_SCREEN_INIT;
 *     uint8_t bytes[4096], out[4096] = {0};
 *     size_t length, needed;
 *     uint32_t status = escape_stream_screen_begin(&screen, 80, 24, 0);
 *     while (status == ESCAPE_STREAM_DONE && (length = fread(bytes, 1, sizeof bytes, stdin)) > 0)
 *         status = escape_stream_screen_feed(&screen, bytes, length);
 *     for (size_t row = 0; status == ESCAPE_STREAM_DONE && row < 24; row++) {
 *         status = escape_stream_screen_text(&screen, row, out, sizeof out, &needed);
 *         if (status == ESCAPE_STREAM_DONE)
 *             printf("%.*s\n", (int)(needed < sizeof out ? needed : sizeof out), (char *)out);
 *     }
 *     escape_stream_screen_end(&screen);
 */
#ifndef ESCAPE_STREAM_SCREEN_H
#define ESCAPE_STREAM_SCREEN_H

#include "escape_stream.h"

#ifdef __cplusplus
extern "C" {
#endif

/*
 * A screen. It lies in the caller's memory as a filter does: set it to zero before the first call,
 * as by = {0}, do not copy it, and end it.
 */
struct escape_stream_screen {
    bool is_begun;
    void *state;
};

/* One that is not begun, as one of zeros is too. */
#define ESCAPE_STREAM_SCREEN_INIT {false, NULL}

/*
 * Begins a blank screen of so many columns and rows, where 0 is as 1. It keeps the last
 * `scrollback` rows that are scrolled off the top of the main screen. A screen that was begun
 * before is ended first. It takes memory for two screens, the main and the alternate one, and for
 * the rows that it keeps as they come.
 *
 * ESCAPE_STREAM_DONE or ESCAPE_STREAM_NO_MEMORY.
 */
uint32_t escape_stream_screen_begin(
    struct escape_stream_screen *screen, uint16_t columns, uint16_t rows, size_t scrollback);

/*
 * Takes the next chunk of the stream, in whatever chunks it comes: the screen is that of the whole
 * stream. LF goes down and does not return to the first column, as a terminal's driver puts CR
 * before it; for a stream that did not go through one, feed ESC [ 2 0 h first.
 */
uint32_t escape_stream_screen_feed(
    struct escape_stream_screen *screen, const uint8_t *bytes, size_t length);

/*
 * Gives the screen so many columns and rows, where 0 is as 1, as xterm does without saved lines: a
 * row is cut or gets blank cells, and rows go and come at the bottom, but as many leave at the top
 * as the row of the cursor needs to stay. Those of the main screen are scrolled off. There are no
 * margins and no origin mode then. All rows are changed at the next escape_stream_screen_changed.
 */
uint32_t escape_stream_screen_resize(
    struct escape_stream_screen *screen, uint16_t columns, uint16_t rows);

/* The state of a screen, but for its cells. Rows and columns are counted from 0 on. */
struct escape_stream_screen_state {
    uint64_t scrolled;      /* how many rows were scrolled off its top in all */
    size_t kept;            /* how many of these are kept: the last ones */
    size_t requests;        /* how many requests the last chunk made */
    size_t links;           /* how many links it has: they are numbered from 1 on */
    uint16_t columns;       /* how many columns it has */
    uint16_t rows;          /* how many rows it has */
    uint16_t cursor_row;    /* where the cursor is */
    uint16_t cursor_column;
    bool pending;           /* whether the next character wraps: the last column was just written */
    bool shown;             /* whether the cursor is shown (DECTCEM) */
    bool alternate;         /* whether the alternate screen is seen */
    bool reversed;          /* whether each cell is to be drawn inverse (DECSCNM) */
    bool synchronized;      /* whether a program is in the middle of an update (mode 2026) */
    bool has_title;         /* whether the window has a title */
};

/* Writes what is known of the screen. */
uint32_t escape_stream_screen_state_of(
    struct escape_stream_screen *screen, struct escape_stream_screen_state *state);

/*
 * A colour is 0, the terminal's own; COLOR_PALETTE and an entry of the palette of 256, whose first
 * 16 are those of SGR 30 to 37 and 90 to 97; or COLOR_DIRECT and red, green and blue, as 0x2rrggbb.
 */
#define ESCAPE_STREAM_COLOR_PALETTE 0x1000000
#define ESCAPE_STREAM_COLOR_DIRECT 0x2000000

/* How a cell is underlined: as by SGR 4:0 to 4:5. */
#define ESCAPE_STREAM_UNDERLINE_NONE 0
#define ESCAPE_STREAM_UNDERLINE_SINGLE 1
#define ESCAPE_STREAM_UNDERLINE_DOUBLE 2
#define ESCAPE_STREAM_UNDERLINE_CURLY 3
#define ESCAPE_STREAM_UNDERLINE_DOTTED 4
#define ESCAPE_STREAM_UNDERLINE_DASHED 5

/*
 * A cell: the character in it, how it looks, and where it leads. A character of two columns has two
 * cells, and the second has a width of 0 and no character.
 */
struct escape_stream_cell {
    uint32_t character;       /* its code point, or 0 where the cell is blank */
    uint32_t first_mark;      /* that of the first mark on it, as an accent, or 0 */
    uint32_t second_mark;     /* that of the second one, or 0 */
    uint32_t foreground;      /* its colour */
    uint32_t background;      /* the colour around it */
    uint32_t underline_color; /* the colour of its underline */
    uint32_t link;            /* the number of the link to which it leads, or 0 */
    uint8_t width;            /* how many columns the character takes: 0, 1 or 2 */
    uint8_t underline;        /* how it is underlined */
    bool bold;                /* SGR 1 */
    bool faint;               /* SGR 2 */
    bool italic;              /* SGR 3 */
    bool blink;               /* SGR 5 or 6 */
    bool inverse;             /* SGR 7 */
    bool concealed;           /* SGR 8 */
    bool strikethrough;       /* SGR 9 */
    bool overline;            /* SGR 53 */
    bool more_marks;          /* whether there were more marks, which are not kept */
    bool joined;              /* in the last cell of a row: whether the row goes on in the next one,
                                 since a character wrapped */
};

/*
 * Writes the cells of a row of the screen, from 0 on, as many as `room` has room for, and to
 * `needed` how many there are: the columns, or 0 where there is no such row.
 */
uint32_t escape_stream_screen_cells(
    struct escape_stream_screen *screen, size_t row, struct escape_stream_cell *cells, size_t room,
    size_t *needed);

/*
 * The same of a row that was scrolled off, with as many cells as the screen had columns then; the
 * first that is kept is 0. Rows of the alternate screen, and those that a part of the screen
 * scrolls by itself below its top, are gone.
 */
uint32_t escape_stream_screen_scrolled(
    struct escape_stream_screen *screen, size_t row, struct escape_stream_cell *cells, size_t room,
    size_t *needed);

/*
 * Writes the text of a row of the screen in UTF-8: its characters and their marks, spaces for the
 * blank cells before them, and nothing for those after them. As much is written as fits, and to
 * `needed` its length.
 */
uint32_t escape_stream_screen_text(
    struct escape_stream_screen *screen, size_t row, uint8_t *out, size_t capacity, size_t *needed);

/*
 * Writes the title of the window (OSC 0, 2 and l) in UTF-8, as much as fits, and its length: 0 also
 * where it has none.
 */
uint32_t escape_stream_screen_title(
    struct escape_stream_screen *screen, uint8_t *out, size_t capacity, size_t *needed);

/* The same of the name of its icon (OSC 0, 1 and L). */
uint32_t escape_stream_screen_icon_name(
    struct escape_stream_screen *screen, uint8_t *out, size_t capacity, size_t *needed);

/*
 * Writes the address of a link (OSC 8), as much as fits, and its length: 0 where there is no such
 * link. Links are counted from 1, and one that came again has the same number.
 */
uint32_t escape_stream_screen_link(
    struct escape_stream_screen *screen, size_t number, uint8_t *out, size_t capacity,
    size_t *needed);

/* The same of the id of a link, of length 0 where it has none. */
uint32_t escape_stream_screen_link_id(
    struct escape_stream_screen *screen, size_t number, uint8_t *out, size_t capacity,
    size_t *needed);

/* A request of a stream to a terminal, which a real one answers. */
#define ESCAPE_STREAM_REQUEST_PRIMARY_ATTRIBUTES 1   /* DA1, DECID */
#define ESCAPE_STREAM_REQUEST_SECONDARY_ATTRIBUTES 2 /* DA2 */
#define ESCAPE_STREAM_REQUEST_TERTIARY_ATTRIBUTES 3  /* DA3 */
#define ESCAPE_STREAM_REQUEST_NAME_AND_VERSION 4     /* XTVERSION */
#define ESCAPE_STREAM_REQUEST_STATUS 5               /* DSR 5 */
#define ESCAPE_STREAM_REQUEST_CURSOR_POSITION 6      /* DSR 6 */
#define ESCAPE_STREAM_REQUEST_MODE_STATE 7           /* DECRQM of the mode `mode` */
#define ESCAPE_STREAM_REQUEST_PRIVATE_MODE_STATE 8   /* DECRQM of the private mode `mode` */

struct escape_stream_request {
    uint32_t kind;
    uint32_t mode; /* 0 but for the last two kinds */
};

/*
 * Writes what the last chunk asked for, in order, as many as there is room for, and to `needed` how
 * many requests these are. A chunk may ask for more after what changes the answer: a caller who
 * answers exactly feeds no more than one sequence at a time.
 */
uint32_t escape_stream_screen_requests(
    struct escape_stream_screen *screen, struct escape_stream_request *requests, size_t room,
    size_t *needed);

/*
 * Writes for each row of the screen, as many as fit, 1 where its cells are not those that they were
 * at the last call that wrote that row's, and 0 elsewhere; at the first call 1. A caller draws
 * those rows and the cursor again, and all rows if `reversed` changed. The first call takes memory
 * for the cells of those rows.
 */
uint32_t escape_stream_screen_changed(
    struct escape_stream_screen *screen, uint8_t *out, size_t capacity);

/* Ends a screen, and gives back what it took. One that is not begun stays so. */
void escape_stream_screen_end(struct escape_stream_screen *screen);

#ifdef __cplusplus
}
#endif

#endif
