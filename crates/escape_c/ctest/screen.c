/* SPDX-License-Identifier: MIT */
/*
 * Checks the screen of escape_stream_screen.h.
 *
 *     screen
 *
 * Cells with characters, marks, widths, looks and links, as ECMA-48 and xterm have them; the
 * cursor; titles; requests; rows that are scrolled off and rows that are changed; another size; the
 * same screen for streams in chunks of each size; no byte past the room; each request for memory
 * refused in turn; screens that are not begun, ended twice or begun again. Prints a line for each
 * difference; the status is 1 where there is one. Link it with
 * -Wl,--wrap=malloc,--wrap=realloc,--wrap=free, by which it counts, refuses, and sees that all was
 * given back.
 */
#include "escape_stream_screen.h"
#define PROGRAM "screen"
#include "memory.h"

enum { COLUMNS = 10, ROWS = 3, KEPT = 2 };

/* How many bytes the fields of a state take, which has some of no field after them. */
enum { STATE = offsetof(struct escape_stream_screen_state, has_title) + 1 };

/* A screen of 10 columns and 3 rows, which was fed this. */
static uint32_t fed(struct escape_stream_screen *screen, const char *text) {
    uint32_t status = escape_stream_screen_begin(screen, COLUMNS, ROWS, KEPT);
    if (status == ESCAPE_STREAM_DONE)
        status = escape_stream_screen_feed(screen, (const uint8_t *)text, strlen(text));
    return status;
}

/* A text that a call writes is this. It writes no byte past it. */
typedef uint32_t writes(
    struct escape_stream_screen *screen, size_t number, uint8_t *out, size_t capacity,
    size_t *needed);

static void wants_text(
    struct escape_stream_screen *screen, writes *call, size_t number, const char *wanted) {
    uint8_t area[64];
    size_t length = strlen(wanted), needed = 99;
    for (size_t room = 0; room <= length + 2; room++) {
        size_t count = room < length ? room : length;
        memset(area, JUNK, sizeof area);
        wants(
            call(screen, number, area, room, &needed) == ESCAPE_STREAM_DONE, "the status of a text",
            wanted, room);
        wants(needed == length, "the length of a text", wanted, needed);
        wants(memcmp(area, wanted, count) == 0, "another text", wanted, number);
        wants(
            is_junk(area + count, sizeof area - count), "a byte past the text was written", wanted,
            room);
    }
}

static uint32_t title(
    struct escape_stream_screen *screen, size_t number, uint8_t *out, size_t capacity,
    size_t *needed) {
    (void)number;
    return escape_stream_screen_title(screen, out, capacity, needed);
}

static uint32_t icon_name(
    struct escape_stream_screen *screen, size_t number, uint8_t *out, size_t capacity,
    size_t *needed) {
    (void)number;
    return escape_stream_screen_icon_name(screen, out, capacity, needed);
}

static void wants_row(struct escape_stream_screen *screen, size_t row, const char *wanted) {
    wants_text(screen, escape_stream_screen_text, row, wanted);
}

static struct escape_stream_screen_state state_of(struct escape_stream_screen *screen) {
    struct escape_stream_screen_state state;
    memset(&state, JUNK, sizeof state);
    wants(
        escape_stream_screen_state_of(screen, &state) == ESCAPE_STREAM_DONE,
        "the status of a state", "", 0);
    return state;
}

static void wants_cursor(struct escape_stream_screen *screen, uint16_t row, uint16_t column) {
    struct escape_stream_screen_state state = state_of(screen);
    wants(state.cursor_row == row, "the row of the cursor", "", state.cursor_row);
    wants(state.cursor_column == column, "its column", "", state.cursor_column);
}

static struct escape_stream_cell cell(
    struct escape_stream_screen *screen, size_t row, size_t column) {
    struct escape_stream_cell cells[COLUMNS + 1];
    size_t needed = 0;
    memset(cells, JUNK, sizeof cells);
    wants(
        escape_stream_screen_cells(screen, row, cells, COLUMNS + 1, &needed) == ESCAPE_STREAM_DONE,
        "the status of cells", "", row);
    wants(needed == COLUMNS, "the count of cells", "", needed);
    wants(is_junk(&cells[COLUMNS], sizeof cells[0]), "a cell past the row was written", "", row);
    return cells[column];
}

static void check_size(void) {
    struct escape_stream_screen screen = ESCAPE_STREAM_SCREEN_INIT;
    struct escape_stream_screen_state state;
    struct escape_stream_cell cells[1];
    size_t needed = 99;
    wants(fed(&screen, "") == ESCAPE_STREAM_DONE, "a screen is not begun", "", 0);
    state = state_of(&screen);
    wants(state.columns == COLUMNS && state.rows == ROWS, "the size", "", state.columns);
    wants(!state.has_title && !state.alternate && state.shown, "the first state", "", 0);
    wants(!state.pending && !state.reversed && !state.synchronized, "the first state", "", 1);
    wants(state.scrolled == 0 && state.kept == 0 && state.links == 0, "nothing yet", "", 0);
    wants_cursor(&screen, 0, 0);
    wants(
        escape_stream_screen_cells(&screen, ROWS, cells, 1, &needed) == ESCAPE_STREAM_DONE &&
            needed == 0,
        "a row past the last", "", needed);
    wants(
        escape_stream_screen_begin(&screen, 0, 0, 0) == ESCAPE_STREAM_DONE, "no columns", "", 0);
    state = state_of(&screen);
    wants(state.columns == 1 && state.rows == 1, "0 is not as 1", "", state.columns);
    escape_stream_screen_end(&screen);
    escape_stream_screen_end(&screen);
    wants(blocks == 0, "blocks are kept after the end", "", (size_t)blocks);
}

/* ECMA-48: CR, LF, BS, HT, CUP (8.3.21), EL (8.3.41), ECH (8.3.38), ICH (8.3.64), DCH (8.3.26). */
static void check_text(void) {
    struct escape_stream_screen screen = ESCAPE_STREAM_SCREEN_INIT;
    fed(&screen, "50%\rdone\r\n\ta\bX\x1b[3;2Hlast\x1b[3;3H\x1b[X");
    wants_row(&screen, 0, "done");
    wants_row(&screen, 1, "        X");
    wants_row(&screen, 2, " l st");
    wants_row(&screen, 3, "");
    wants_cursor(&screen, 2, 2);
    fed(&screen, "0123456789\x1b[1;4H\x1b[2P\x1b[1;1H\x1b[3@ab");
    wants_row(&screen, 0, "ab 0125678");
    fed(&screen, "0123456789a");
    wants(cell(&screen, 0, 9).joined && !cell(&screen, 1, 9).joined, "a wrap", "", 0);
    wants_row(&screen, 1, "a");
    fed(&screen, "0123456789");
    wants(state_of(&screen).pending, "no wrap is pending", "", 0);
    wants_cursor(&screen, 0, 9);
    escape_stream_screen_end(&screen);
}

/* ECMA-48, 8.3.117 (SGR); xterm's "Character Attributes". */
static void check_looks(void) {
    struct escape_stream_screen screen = ESCAPE_STREAM_SCREEN_INIT;
    struct escape_stream_cell it;
    fed(&screen, "\x1b[1;2;3;4;5ma\x1b[0;7;8;9;53mb\x1b[0;31;102mc\x1b[0;38;5;196;48;2;1;2;3md"
                 "\x1b[0;4:3;58;5;7me\x1b[0;41m\x1b[Kf\x1b[m");
    it = cell(&screen, 0, 0);
    wants(it.character == 'a' && it.width == 1, "a character", "a", it.character);
    wants(it.bold && it.faint && it.italic && it.blink, "a rendition", "a", 0);
    wants(it.underline == ESCAPE_STREAM_UNDERLINE_SINGLE, "an underline", "a", it.underline);
    wants(!it.inverse && !it.concealed && !it.strikethrough && !it.overline, "plain", "a", 0);
    wants(it.foreground == 0 && it.background == 0, "no colour", "a", it.foreground);
    it = cell(&screen, 0, 1);
    wants(it.inverse && it.concealed && it.strikethrough && it.overline, "a rendition", "b", 0);
    wants(!it.bold && it.underline == ESCAPE_STREAM_UNDERLINE_NONE, "no rendition", "b", 0);
    it = cell(&screen, 0, 2);
    wants(it.foreground == ESCAPE_STREAM_COLOR_PALETTE + 1, "red", "c", it.foreground);
    wants(it.background == ESCAPE_STREAM_COLOR_PALETTE + 10, "green", "c", it.background);
    it = cell(&screen, 0, 3);
    wants(it.foreground == ESCAPE_STREAM_COLOR_PALETTE + 196, "an entry", "d", it.foreground);
    wants(it.background == ESCAPE_STREAM_COLOR_DIRECT + 0x010203, "direct", "d", it.background);
    it = cell(&screen, 0, 4);
    wants(it.underline == ESCAPE_STREAM_UNDERLINE_CURLY, "wavy", "e", it.underline);
    wants(it.underline_color == ESCAPE_STREAM_COLOR_PALETTE + 7, "its colour", "e", 0);
    it = cell(&screen, 0, 9);
    wants(it.character == 0 && it.width == 1, "a blank cell", "", it.character);
    wants(it.background == ESCAPE_STREAM_COLOR_PALETTE + 1, "an erased cell", "", it.background);
    escape_stream_screen_end(&screen);
}

/* UAX #11 (widths); marks join the character before them. */
static void check_widths(void) {
    struct escape_stream_screen screen = ESCAPE_STREAM_SCREEN_INIT;
    struct escape_stream_cell it;
    fed(&screen, "\xe6\x97\xa5" "e\xcc\x81\xcc\xa3\xcc\x88|\x1b[1;2Hx");
    it = cell(&screen, 0, 0);
    wants(it.character == 0, "half of a character is left", "", it.character);
    it = cell(&screen, 0, 2);
    wants(it.character == 'e' && it.first_mark == 0x301, "a mark", "", it.first_mark);
    wants(it.second_mark == 0x323 && it.more_marks, "a second mark", "", it.second_mark);
    wants_row(&screen, 0, " xe\xcc\x81\xcc\xa3|");
    fed(&screen, "a\xe6\x97\xa5");
    it = cell(&screen, 0, 1);
    wants(it.character == 0x65e5 && it.width == 2, "a wide character", "", it.width);
    it = cell(&screen, 0, 2);
    wants(it.character == 0 && it.width == 0, "its second half", "", it.width);
    escape_stream_screen_end(&screen);
}

/* "Hyperlinks in terminal emulators"; OSC 0, 1 and 2 of xterm. */
static void check_strings(void) {
    struct escape_stream_screen screen = ESCAPE_STREAM_SCREEN_INIT;
    fed(&screen, "\x1b]2;a title\x1b\\\x1b]8;id=n;http://a/\x1b\\x\x1b]8;;http://b/\x1b\\y"
                 "\x1b]8;id=n;http://a/\x1b\\z\x1b]8;;\x1b\\.");
    wants_text(&screen, title, 0, "a title");
    wants_text(&screen, icon_name, 0, "");
    wants(state_of(&screen).has_title && state_of(&screen).links == 2, "two links", "", 0);
    wants(cell(&screen, 0, 0).link == 1 && cell(&screen, 0, 1).link == 2, "a link", "", 0);
    wants(cell(&screen, 0, 2).link == 1 && cell(&screen, 0, 3).link == 0, "a link", "", 1);
    wants_text(&screen, escape_stream_screen_link, 1, "http://a/");
    wants_text(&screen, escape_stream_screen_link, 2, "http://b/");
    wants_text(&screen, escape_stream_screen_link, 3, "");
    wants_text(&screen, escape_stream_screen_link, 0, "");
    wants_text(&screen, escape_stream_screen_link, SIZE_MAX, "");
    wants_text(&screen, escape_stream_screen_link_id, 1, "n");
    wants_text(&screen, escape_stream_screen_link_id, 2, "");
    fed(&screen, "\x1b]0;both\x07\x1b]1;an icon\x07");
    wants_text(&screen, title, 0, "both");
    wants_text(&screen, icon_name, 0, "an icon");
    fed(&screen, "");
    wants_text(&screen, title, 0, "");
    wants_text(&screen, icon_name, 0, "");
    escape_stream_screen_end(&screen);
}

/* DA (ECMA-48, 8.3.24), DSR (8.3.35), DECRQM (VT510), XTVERSION (xterm). */
static void check_requests(void) {
    static const struct escape_stream_request wanted[] = {
        {ESCAPE_STREAM_REQUEST_PRIMARY_ATTRIBUTES, 0},
        {ESCAPE_STREAM_REQUEST_SECONDARY_ATTRIBUTES, 0},
        {ESCAPE_STREAM_REQUEST_TERTIARY_ATTRIBUTES, 0},
        {ESCAPE_STREAM_REQUEST_NAME_AND_VERSION, 0},
        {ESCAPE_STREAM_REQUEST_STATUS, 0},
        {ESCAPE_STREAM_REQUEST_CURSOR_POSITION, 0},
        {ESCAPE_STREAM_REQUEST_MODE_STATE, 4},
        {ESCAPE_STREAM_REQUEST_PRIVATE_MODE_STATE, 2026},
    };
    struct escape_stream_screen screen = ESCAPE_STREAM_SCREEN_INIT;
    struct escape_stream_request asked[9];
    size_t needed = 0;
    fed(&screen, "\x1b[c\x1b[>c\x1b[=c\x1b[>q\x1b[5n\x1b[6n\x1b[4$p\x1b[?2026$p");
    wants(state_of(&screen).requests == 8, "the count of requests", "", needed);
    for (size_t room = 0; room <= 9; room++) {
        size_t count = room < 8 ? room : 8;
        memset(asked, JUNK, sizeof asked);
        escape_stream_screen_requests(&screen, asked, room, &needed);
        wants(needed == 8, "the count of requests", "", needed);
        wants(memcmp(asked, wanted, count * sizeof wanted[0]) == 0, "a request", "", room);
        wants(
            is_junk(asked + count, sizeof asked - count * sizeof wanted[0]),
            "a request past the room", "", room);
    }
    escape_stream_screen_feed(&screen, (const uint8_t *)"a", 1);
    escape_stream_screen_requests(&screen, asked, 8, &needed);
    wants(needed == 0, "a request of an earlier chunk", "", needed);
    escape_stream_screen_end(&screen);
}

static void wants_scrolled(
    struct escape_stream_screen *screen, size_t row, size_t wanted, uint32_t character) {
    struct escape_stream_cell cells[COLUMNS];
    size_t needed = 99;
    memset(cells, JUNK, sizeof cells);
    wants(
        escape_stream_screen_scrolled(screen, row, cells, COLUMNS, &needed) == ESCAPE_STREAM_DONE,
        "the status of a row", "", row);
    wants(needed == wanted, "the cells of a row that was scrolled off", "", needed);
    wants(
        needed == 0 ? is_junk(cells, sizeof cells) : cells[0].character == character,
        "the row that was scrolled off", "", row);
}

static void check_scrolled(void) {
    struct escape_stream_screen screen = ESCAPE_STREAM_SCREEN_INIT;
    fed(&screen, "a\r\nb\r\nc\r\nd");
    wants(state_of(&screen).scrolled == 1 && state_of(&screen).kept == 1, "a row", "", 1);
    wants_scrolled(&screen, 0, COLUMNS, 'a');
    wants_scrolled(&screen, 1, 0, 0);
    for (const char *text = "efgh"; *text; text++) {
        uint8_t line[] = {'\r', '\n', (uint8_t)*text};
        escape_stream_screen_feed(&screen, line, sizeof line);
    }
    wants(state_of(&screen).scrolled == 5 && state_of(&screen).kept == KEPT, "five rows", "", 5);
    wants_scrolled(&screen, 0, COLUMNS, 'd');
    wants_scrolled(&screen, 1, COLUMNS, 'e');
    wants_scrolled(&screen, 2, 0, 0);
    wants_scrolled(&screen, SIZE_MAX, 0, 0);
    escape_stream_screen_feed(&screen, (const uint8_t *)"\x1b[?1049h\n\n\n\n", 12);
    wants(state_of(&screen).alternate, "the alternate screen", "", 0);
    wants(state_of(&screen).scrolled == 5, "a row of the alternate screen", "", 0);
    escape_stream_screen_begin(&screen, COLUMNS, ROWS, 0);
    escape_stream_screen_feed(&screen, (const uint8_t *)"\n\n\n\n", 4);
    wants(state_of(&screen).scrolled == 2 && state_of(&screen).kept == 0, "none is kept", "", 0);
    wants_scrolled(&screen, 0, 0, 0);
    escape_stream_screen_end(&screen);
}

static void wants_changed(struct escape_stream_screen *screen, const char *text, const char *rows) {
    uint8_t area[ROWS + 1];
    memset(area, JUNK, sizeof area);
    escape_stream_screen_feed(screen, (const uint8_t *)text, strlen(text));
    wants(
        escape_stream_screen_changed(screen, area, strlen(rows)) == ESCAPE_STREAM_DONE,
        "the status of rows that are changed", text, 0);
    for (size_t i = 0; i < strlen(rows); i++)
        wants(area[i] == rows[i] - '0', "a row that is changed", text, i);
    wants(is_junk(area + strlen(rows), sizeof area - strlen(rows)), "a row past them", text, 0);
}

static void check_changed(void) {
    struct escape_stream_screen screen = ESCAPE_STREAM_SCREEN_INIT;
    fed(&screen, "a");
    wants_changed(&screen, "", "111");
    wants_changed(&screen, "", "000");
    wants_changed(&screen, "\x1b[2;1Hb", "010");
    wants_changed(&screen, "\x1b[2;1Hb", "000");
    wants_changed(&screen, "\x1b[2;1H\x1b[1mb", "010");
    wants_changed(&screen, "\x1b[3;1Hcc\x1b[3;1H", "00");
    wants_changed(&screen, "", "001");
    wants_changed(&screen, "\n", "111");
    wants_changed(&screen, "\x1b[?1049h", "110");
    escape_stream_screen_end(&screen);
}

/* Another size: rows and cursors are those that xterm 379 has without saved lines. */
static void check_resized(void) {
    struct escape_stream_screen screen = ESCAPE_STREAM_SCREEN_INIT;
    struct escape_stream_cell cells[COLUMNS + 1];
    uint8_t changed[ROWS], text[8] = {0};
    size_t needed;
    fed(&screen, "1\r\n2\r\nabc");
    escape_stream_screen_changed(&screen, changed, ROWS);
    wants(
        escape_stream_screen_resize(&screen, 2, 2) == ESCAPE_STREAM_DONE, "the status of a size",
        "", 0);
    wants(state_of(&screen).columns == 2 && state_of(&screen).rows == 2, "the size", "", 0);
    wants(
        state_of(&screen).cursor_row == 1 && state_of(&screen).cursor_column == 1,
        "the cursor of another size", "", 0);
    wants(state_of(&screen).scrolled == 1, "a row that leaves", "", 0);
    escape_stream_screen_text(&screen, 1, text, sizeof text, &needed);
    wants(needed == 2 && memcmp(text, "ab", 2) == 0, "a row that is cut", "", 0);
    escape_stream_screen_cells(&screen, 1, cells, COLUMNS + 1, &needed);
    wants(needed == 2, "the cells of one", "", needed);
    escape_stream_screen_scrolled(&screen, 0, cells, COLUMNS + 1, &needed);
    wants(needed == COLUMNS && cells[0].character == '1', "the cells of one that left", "", needed);
    wants_changed(&screen, "", "11");
    wants_changed(&screen, "\x1b[1;1H3", "10");
    wants(
        escape_stream_screen_resize(&screen, 0, 0) == ESCAPE_STREAM_DONE, "the status of no size",
        "", 0);
    wants(state_of(&screen).columns == 1 && state_of(&screen).rows == 1, "the least size", "", 0);
    escape_stream_screen_end(&screen);
    wants(
        escape_stream_screen_resize(&screen, 2, 2) == ESCAPE_STREAM_NOT_BEGUN,
        "a size of a screen that ended", "", 0);
}

static const char stream[] =
    "\x1b]0;t\x07" "caf\xc3\xa9 \xe6\x97\xa5\x1b[1;38;2;9;8;7mlook\x1b[m\r\n\x1b]8;;http://a/\x07"
    "link\x1b]8;;\x07\x1b[2;3r\n\n\n\x1b[6n\x1b[r\x1b[3;1H\n\n\x1b[?25l\x1b[2J\x1b[2;4Hend";

/* All of a screen that the calls give. */
struct all {
    struct escape_stream_screen_state state;
    struct escape_stream_cell cells[ROWS][COLUMNS];
    struct escape_stream_cell kept[KEPT][COLUMNS];
};

static uint32_t all_of(size_t size, struct all *all) {
    struct escape_stream_screen screen = ESCAPE_STREAM_SCREEN_INIT;
    uint8_t changed[ROWS] = {0}, text[8] = {0};
    size_t needed;
    uint32_t status = escape_stream_screen_begin(&screen, COLUMNS, ROWS, KEPT);
    memset(all, 0, sizeof *all);
    for (size_t at = 0; status == ESCAPE_STREAM_DONE && at < sizeof stream - 1; at += size) {
        size_t rest = sizeof stream - 1 - at;
        status = escape_stream_screen_feed(
            &screen, (const uint8_t *)stream + at, size < rest ? size : rest);
    }
    if (status == ESCAPE_STREAM_DONE)
        status = escape_stream_screen_changed(&screen, changed, ROWS);
    if (status == ESCAPE_STREAM_DONE)
        status = escape_stream_screen_text(&screen, 1, text, sizeof text, &needed);
    if (status == ESCAPE_STREAM_DONE)
        status = escape_stream_screen_state_of(&screen, &all->state);
    for (size_t row = 0; status == ESCAPE_STREAM_DONE && row < ROWS; row++)
        status = escape_stream_screen_cells(&screen, row, all->cells[row], COLUMNS, &needed);
    for (size_t row = 0; status == ESCAPE_STREAM_DONE && row < KEPT; row++)
        status = escape_stream_screen_scrolled(&screen, row, all->kept[row], COLUMNS, &needed);
    if (status != ESCAPE_STREAM_DONE) {
        wants(
            !screen.is_begun && blocks == 0, "blocks are kept after memory was refused", "",
            (size_t)blocks);
        wants(
            escape_stream_screen_feed(&screen, text, 1) == ESCAPE_STREAM_NOT_BEGUN,
            "a call after memory was refused", "", refused);
    }
    escape_stream_screen_end(&screen);
    wants(blocks == 0, "blocks are kept after the end", "", (size_t)blocks);
    return status;
}

static void check_chunks(void) {
    static struct all whole, cut;
    unsigned long count;
    all_of(sizeof stream, &whole);
    wants(whole.state.scrolled == 2 && !whole.state.shown, "the stream", "", 0);
    for (size_t size = 1; size < sizeof stream; size++) {
        all_of(size, &cut);
        cut.state.requests = whole.state.requests;
        wants(
            memcmp(&whole.state, &cut.state, STATE) == 0 &&
                memcmp(whole.cells, cut.cells, sizeof whole.cells) == 0 &&
                memcmp(whole.kept, cut.kept, sizeof whole.kept) == 0,
            "another screen in chunks", "", size);
    }
    requests = 0;
    all_of(7, &cut);
    count = requests;
    wants(count > 0, "no request for memory", "", count);
    for (unsigned long at = 1; at <= count; at++) {
        requests = 0;
        refused = at;
        wants(
            all_of(7, &cut) == ESCAPE_STREAM_NO_MEMORY, "memory was refused, and not said", "", at);
        refused = 0;
    }
}

static void check_kinds(void) {
    struct escape_stream_screen screen = ESCAPE_STREAM_SCREEN_INIT;
    struct escape_stream_filter_state filter = ESCAPE_STREAM_FILTER_INIT;
    struct escape_stream_cell cells[1];
    size_t needed = 99;
    memset(cells, JUNK, sizeof cells);
    wants(
        escape_stream_screen_cells(&screen, 0, cells, 1, &needed) == ESCAPE_STREAM_NOT_BEGUN &&
            needed == 99 && is_junk(cells, sizeof cells),
        "a screen that is not begun", "", needed);
    /* The two structs are the same to the library: it gives back what is of the other kind. */
    escape_stream_filter_begin(&filter, ESCAPE_STREAM_POLICY_TEXT, 100);
    memcpy(&screen, &filter, sizeof screen);
    wants(
        escape_stream_screen_title(&screen, (uint8_t *)cells, 1, &needed) ==
                ESCAPE_STREAM_NOT_BEGUN &&
            !screen.is_begun && blocks == 0,
        "a filter in a screen's place", "", (size_t)blocks);
}

int main(void) {
    check_size();
    check_text();
    check_looks();
    check_widths();
    check_strings();
    check_requests();
    check_scrolled();
    check_changed();
    check_resized();
    check_chunks();
    check_kinds();
    return differences > 0;
}
