/* SPDX-License-Identifier: MIT */
/*
 * Checks the pages in chunks of escape_stream.h.
 *
 *     html
 *
 * A stream in chunks of each size gives the page that is wanted in each layout, read in each
 * capacity; each request for memory is refused in turn; pages that are not begun, ended twice or
 * begun again. Prints a line for each difference; the status is 1 where there is one. Link it with
 * -Wl,--wrap=malloc,--wrap=realloc,--wrap=free, by which it refuses, and sees that all was given
 * back.
 */
#define PROGRAM "html"
#define IN_CHUNKS escape_stream_html
#define OUTPUT escape_stream_html_output
#include "output.h"

static const char STREAM[] =
    "<i>\x1b[1;32mok\nx\x1b]8;;https://a/"
    "?b&c\x07y\x1b]8;;\x07\x1b]8;;javascript:z\x07z\x1b[m\x1b]0;t\x07\xff\x1b[3ms";

static const char *const PAGES[] = {
    "&lt;i&gt;<span class=\"es-bold es-fg-green\">ok\nx</span>"
    "<a href=\"https://a/?b&amp;c\" rel=\"nofollow noopener noreferrer\"><span class=\"es-bold "
    "es-fg-green\">y</span></a>"
    "<span class=\"es-bold es-fg-green\">z</span>\xef\xbf\xbd<span class=\"es-italic\">s</span>",
    "&lt;i&gt;<span class=\"es-bold es-fg-green\">ok</span>\n<span class=\"es-bold "
    "es-fg-green\">x</span>"
    "<a href=\"https://a/?b&amp;c\" rel=\"nofollow noopener noreferrer\"><span class=\"es-bold "
    "es-fg-green\">y</span></a>"
    "<span class=\"es-bold es-fg-green\">z</span>\xef\xbf\xbd<span class=\"es-italic\">s</span>",
    "&lt;i&gt;<span style=\"font-weight:bold;color:#116329;\">ok\nx</span>"
    "<a href=\"https://a/?b&amp;c\" rel=\"nofollow noopener noreferrer\"><span "
    "style=\"font-weight:bold;color:#116329;\">y</span></a>"
    "<span style=\"font-weight:bold;color:#116329;\">z</span>\xef\xbf\xbd<span "
    "style=\"font-style:italic;\">s</span>",
    "&lt;i&gt;<span style=\"font-weight:bold;color:#116329;\">ok</span>\n<span "
    "style=\"font-weight:bold;color:#116329;\">x</span>"
    "<a href=\"https://a/?b&amp;c\" rel=\"nofollow noopener noreferrer\"><span "
    "style=\"font-weight:bold;color:#116329;\">y</span></a>"
    "<span style=\"font-weight:bold;color:#116329;\">z</span>\xef\xbf\xbd<span "
    "style=\"font-style:italic;\">s</span>",
};

/* The stream in chunks of this size. Returns the status; the text is the beginning of what is
 * wanted, and where it is done all of it. */
static uint32_t page_of(unsigned layout, size_t size, size_t capacity) {
    struct escape_stream_html page = {0};
    const uint8_t *bytes = (const uint8_t *)STREAM;
    size_t length = sizeof STREAM - 1, needed = strlen(PAGES[layout]), count = 0;
    uint8_t text[MOST];
    uint32_t status = escape_stream_html_begin(&page, layout & 1, layout & 2, LIMIT);
    for (size_t at = 0; status == ESCAPE_STREAM_DONE && at < length; at += size) {
        status =
            escape_stream_html_feed(&page, bytes + at, size < length - at ? size : length - at);
        count = append(&page, capacity, text, count);
    }
    if (status == ESCAPE_STREAM_DONE) {
        wants(
            escape_stream_html_finish(&page) == ESCAPE_STREAM_DONE, "an end that is refused", "",
            size);
        count = append(&page, capacity, text, count);
    } else {
        wants(!page.is_begun, "a page that was refused memory goes on", "", size);
        wants(blocks == 0, "blocks are kept after memory was refused", "", (size_t)blocks);
    }
    wants(count <= needed && memcmp(text, PAGES[layout], count) == 0, "another text", "", size);
    wants(status != ESCAPE_STREAM_DONE || count == needed, "another length", "", count);
    escape_stream_html_end(&page);
    wants(blocks == 0, "blocks are kept after the end", "", (size_t)blocks);
    return status;
}

static void check_layout(unsigned layout) {
    for (size_t size = 1; size < sizeof STREAM; size++)
        wants(
            page_of(layout, size, 1 + size % 40) == ESCAPE_STREAM_DONE, "another status", "", size);
    for (unsigned long at = 1; at < 1000; at++) {
        uint32_t status;
        requests = 0;
        refused = at;
        status = page_of(layout, 7, 40);
        refused = 0;
        wants(
            status == ESCAPE_STREAM_DONE || status == ESCAPE_STREAM_NO_MEMORY,
            "another status where memory is refused", "", at);
        if (requests < at)
            return;
    }
}

static void check_states(void) {
    struct escape_stream_html page = {0};
    const uint8_t bytes[] = {0x1b, '[', '1', 'm', 'a'};
    uint8_t out[40] = {0};
    escape_stream_html_end(&page);
    wants(
        escape_stream_html_feed(&page, bytes, 5) == ESCAPE_STREAM_NOT_BEGUN, "fed before it began",
        "", 0);
    wants(
        escape_stream_html_finish(&page) == ESCAPE_STREAM_NOT_BEGUN, "ended before it began", "",
        0);
    wants(escape_stream_html_output(&page, 0, out, 8) == 0, "a text before it began", "", 0);
    for (int i = 0; i < 3; i++) {
        wants(
            escape_stream_html_begin(&page, false, false, LIMIT) == ESCAPE_STREAM_DONE,
            "begun again", "", 0);
        wants(
            escape_stream_html_output(&page, 0, out, 8) == 0, "a text before the first chunk", "",
            0);
        wants(escape_stream_html_feed(&page, bytes, 5) == ESCAPE_STREAM_DONE, "fed", "", 0);
        wants(
            escape_stream_html_output(&page, 0, out, sizeof out) == 23 &&
                memcmp(out, "<span class=\"es-bold\">a", 23) == 0,
            "its text", "", 0);
    }
    wants(escape_stream_html_finish(&page) == ESCAPE_STREAM_DONE, "ended", "", 0);
    wants(
        escape_stream_html_output(&page, 0, out, sizeof out) == 7 && memcmp(out, "</span>", 7) == 0,
        "what closes it", "", 0);
    wants(escape_stream_html_finish(&page) == ESCAPE_STREAM_DONE, "ended twice", "", 0);
    wants(
        escape_stream_html_output(&page, 0, out, sizeof out) == 7, "what closes it, once more", "",
        0);
    wants(
        escape_stream_html_feed(&page, bytes, 5) == ESCAPE_STREAM_NOT_BEGUN, "fed after the end",
        "", 0);
    wants(blocks == 0, "blocks are kept after the end", "", (size_t)blocks);
    escape_stream_html_end(&page);
}

int main(void) {
    check_states();
    for (unsigned layout = 0; layout < 4; layout++)
        check_layout(layout);
    printf("%lu differences\n", differences);
    return differences != 0;
}
