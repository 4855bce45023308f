/* SPDX-License-Identifier: MIT */
/*
 * Tests calls.c and screen.c on another processor, over memory below 4 GiB, where a place has 32
 * bits too: each call hands on what it is given, and returns what the library does.
 */
#define _GNU_SOURCE
#include "events.h"
#include "exports.h"
#include "heap.h"

#include "escape_stream.h"
#include "escape_stream_screen.h"

#include <stdio.h>
#include <stdlib.h>
#include <string.h>
#include <sys/mman.h>

#define CHECK(what) ((what) ? (void)0 : fail(__LINE__, #what))

static void fail(int line, const char *what)
{
    printf("bindings/shims/wasm/calls_test.c:%d: %s\n", line, what);
    exit(1);
}

/* The exported calls. */
NUMBER host_take(NUMBER length);
void host_give(NUMBER at);
#define CHUNKS(name)                                                           \
    NUMBER host_##name##_feed(NUMBER it, NUMBER bytes, NUMBER length);         \
    NUMBER host_##name##_finish(NUMBER it);                                    \
    NUMBER host_##name##_output(NUMBER it, NUMBER from, NUMBER out, NUMBER room); \
    void host_##name##_end(NUMBER it);
CHUNKS(filter)
CHUNKS(sanitizer)
CHUNKS(html)
CHUNKS(normal)
NUMBER host_filter_begin(NUMBER it, NUMBER policy, NUMBER limit);
NUMBER host_sanitizer_begin(NUMBER it, NUMBER options);
NUMBER host_sanitizer_account(NUMBER it, NUMBER account);
NUMBER host_html_begin(NUMBER it, NUMBER per_line, NUMBER is_inline, NUMBER limit);
NUMBER host_normal_begin(NUMBER it, NUMBER limit);
NUMBER host_function(NUMBER prefix, NUMBER mark, NUMBER final, NUMBER count, NUMBER out);
NUMBER host_escape_function(NUMBER mark, NUMBER final, NUMBER out);
NUMBER host_control_function(NUMBER code, NUMBER out);
#define READ(name)                                                                       \
    NUMBER host_read_##name(NUMBER, NUMBER, NUMBER, NUMBER, NUMBER, NUMBER, NUMBER);
READ(osc)
READ(kitty)
READ(tcap)
READ(sixel)
NUMBER host_events_size(void);
void host_begin(NUMBER it);
void host_next(NUMBER it, NUMBER buffer, NUMBER size, NUMBER bytes, NUMBER length);
NUMBER host_is_ground(NUMBER it);
NUMBER host_screen_begin(NUMBER it, NUMBER columns, NUMBER rows);
NUMBER host_screen_feed(NUMBER it, NUMBER bytes, NUMBER length);
NUMBER host_screen_state(NUMBER it, NUMBER state);
NUMBER host_screen_cells(NUMBER it, NUMBER row, NUMBER cells, NUMBER room);
NUMBER host_screen_link(NUMBER it, NUMBER number, NUMBER out, NUMBER room);
void host_screen_end(NUMBER it);

/* The heap of the host: memory below 4 GiB, of which nothing is given back. */
enum { ALL = 1 << 21 };
static uint8_t *memory;
static size_t used;

uint8_t *heap_take(u64 n)
{
    uint8_t *at = memory + used;
    used += (n + 15) & ~15ul;
    return used <= ALL ? at : NULL;
}

void heap_give(uint8_t *p) { CHECK(p >= memory && p < memory + used); }

/* A place with a text, and how long it is. */
static NUMBER length;
static NUMBER text(const char *of)
{
    NUMBER at = host_take((NUMBER)strlen(of) + 1);
    length = (NUMBER)strlen(of);
    memcpy(AT(char, at), of, length + 1u);
    return at;
}

static NUMBER zeros(size_t size)
{
    NUMBER at = host_take((NUMBER)size);
    memset(AT(char, at), 0, size);
    return at;
}

static bool is_text(NUMBER at, NUMBER size, const char *wanted)
{
    return size == strlen(wanted) && memcmp(AT(char, at), wanted, size) == 0;
}

/* Feeds a stream, ends it, and compares what each of the two gives. */
#define GIVES(name, it, stream, fed, ended)                        \
    do {                                                           \
        NUMBER bytes = text(stream), out = zeros(256), n;          \
        CHECK(host_##name##_feed(it, bytes, length) == 0);         \
        n = host_##name##_output(it, 0, out, 256);                 \
        CHECK(is_text(out, n, fed));                               \
        CHECK(n < 2 || host_##name##_output(it, 1, out, 1) == 1);  \
        CHECK(host_##name##_finish(it) == 0);                      \
        CHECK(is_text(out, host_##name##_output(it, 0, out, 256), ended)); \
    } while (0)

static void test_texts(void)
{
    NUMBER it = zeros(16);
    CHECK(host_filter_begin(it, 99, 64) != 0);
    CHECK(host_filter_begin(it, ESCAPE_STREAM_POLICY_COLOR, 64) == 0);
    GIVES(filter, it, "a\x1b]0;t\a\x1b[1mb", "a\x1b[1mb", "\x1b[0m");
    host_filter_end(it);
    CHECK(host_filter_feed(it, it, 0) == ESCAPE_STREAM_NOT_BEGUN);
    CHECK(host_html_begin(it, 0, 0, 64) == 0);
    GIVES(html, it, "\x1b[1m<", "<span class=\"es-bold\">&lt;", "</span>");
    host_html_end(it);
    CHECK(host_html_begin(it, 0, 1, 64) == 0);
    GIVES(html, it, "\x1b[1m<", "<span style=\"font-weight:bold;\">&lt;", "</span>");
    host_html_end(it);
    CHECK(host_normal_begin(it, 64) == 0);
    GIVES(normal, it, "a\x1b]0;t\a", "a\x1b]0;t\x1b\\", "");
    host_normal_end(it);
}

static void test_sanitizer(void)
{
    struct escape_stream_sanitizer_options init = ESCAPE_STREAM_SANITIZER_OPTIONS_INIT;
    struct escape_stream_account *account;
    NUMBER it = zeros(16), options = zeros(sizeof init), out = zeros(sizeof *account);
    NUMBER at = text("a\x1b]0;t\ab\n");
    memcpy(AT(char, options), &init, sizeof init);
    CHECK(host_sanitizer_begin(it, options) == 0);
    CHECK(host_sanitizer_feed(it, at, length) == 0);
    at = zeros(16);
    CHECK(is_text(at, host_sanitizer_output(it, 0, at, 16), "ab\n"));
    CHECK(host_sanitizer_finish(it) == 0);
    CHECK(host_sanitizer_account(it, out) == 0);
    account = AT(struct escape_stream_account, out);
    CHECK(account->passed == 3 && account->left_out == 6 && account->length == 9);
    host_sanitizer_end(it);
}

static void test_functions(void)
{
    NUMBER out = zeros(sizeof(struct escape_stream_function_info));
    struct escape_stream_function_info *row = AT(struct escape_stream_function_info, out);
    CHECK(host_function(0, 0, 'J', 1, out) && !strcmp(row->name, "ED"));
    CHECK(host_function('?', 0, 'h', 1, out) && !strcmp(row->name, "DECSET"));
    CHECK(host_function(0, ' ', 'q', 1, out) && !strcmp(row->name, "DECSCUSR"));
    CHECK(host_escape_function(0, 'M', out) && !strcmp(row->name, "RI"));
    CHECK(host_escape_function('(', 'B', out) && strcmp(row->name, "RI") != 0);
    CHECK(host_control_function(10, out) && !strcmp(row->name, "LF"));
}

static void test_reads(void)
{
    NUMBER value = zeros(64), fields = zeros(24 * sizeof(struct escape_stream_field));
    NUMBER out = zeros(64), at = text("2;a title");
    struct escape_stream_field *field = AT(struct escape_stream_field, fields);
    CHECK(host_read_osc(at, length, value, fields, 24, out, 64) == 0);
    CHECK(AT(struct escape_stream_osc, value)->kind == ESCAPE_STREAM_OSC_SET_WINDOW_TITLE);
    CHECK(is_text(out, (NUMBER)field->length, "a title"));
    at = text("Gf=24,s=10,v=20;AAAA");
    CHECK(host_read_kitty(at, length, value, fields, 24, out, 64) == 0);
    CHECK(AT(struct escape_stream_image, value)->kind != ESCAPE_STREAM_KITTY_NONE);
    at = text("544e");
    CHECK(host_read_tcap(at, length, value, fields, 24, out, 64) == 0);
    CHECK(AT(struct escape_stream_query, value)->name_count == 1 && is_text(out, 2, "TN"));
    out = zeros(8 * sizeof(struct escape_stream_sixel_item));
    at = text("~-~");
    CHECK(host_read_sixel(zeros(8), 0, at, length, value, out, 8) == 0);
    CHECK(AT(struct escape_stream_sixel, value)->item_count == 3);
    CHECK(AT(struct escape_stream_sixel_item, out)[1].kind == ESCAPE_STREAM_SIXEL_NEW_LINE);
}

static void test_events(void)
{
    NUMBER it = zeros(host_events_size()), buffer = zeros(128), at;
    struct events *events = AT(struct events, it);
    host_begin(it);
    CHECK(host_is_ground(it));
    at = text("a\x1b[");
    host_next(it, buffer, 128, at, length);
    CHECK(events->is_done && events->taken == 3 && !host_is_ground(it));
    CHECK(events->words == 2 && events->records[0] == ESCAPE_STREAM_TEXT);
    CHECK(is_text(it + (NUMBER)offsetof(struct events, text), events->text_length, "a"));
    at = text("1m");
    host_next(it, buffer, 128, at, length);
    CHECK(events->words == 5 && events->records[0] == ESCAPE_STREAM_CSI);
    CHECK(events->records[1] == 'm' && events->records[4] == 1);
}

static void test_screen(void)
{
    struct escape_stream_screen_state *state;
    NUMBER it = zeros(16), out = zeros(sizeof *state), cells;
    NUMBER at = text("\x1b]8;;http://e\x1b\\\x1b[1mab\x1b[2;3Hc");
    struct escape_stream_cell *cell;
    CHECK(host_screen_begin(it, 4, 2) == 0);
    CHECK(host_screen_feed(it, at, length) == 0);
    CHECK(host_screen_state(it, out) == 0);
    state = AT(struct escape_stream_screen_state, out);
    CHECK(state->columns == 4 && state->rows == 2 && state->cursor_row == 1);
    cells = zeros(4 * sizeof *cell);
    cell = AT(struct escape_stream_cell, cells);
    CHECK(host_screen_cells(it, 0, cells, 4) == 4 && cell[0].character == 'a' && cell[0].bold);
    CHECK(cell[1].character == 'b' && cell[1].link == 1 && cell[2].character == 0);
    CHECK(host_screen_cells(it, 1, cells, 4) == 4 && cell[2].character == 'c');
    CHECK(host_screen_cells(it, 2, cells, 4) == 0 && host_screen_link(it, 9, out, 8) == 0);
    CHECK(is_text(out, host_screen_link(it, 1, out, 48), "http://e"));
    host_screen_end(it);
}

int main(void)
{
    memory = mmap((void *)0x20000000, ALL, PROT_READ | PROT_WRITE, MAP_PRIVATE | MAP_ANONYMOUS,
                  -1, 0);
    CHECK(memory != MAP_FAILED && (size_t)memory < UINT32_MAX - ALL);
    host_give(host_take(1));
    test_texts();
    test_sanitizer();
    test_functions();
    test_reads();
    test_events();
    test_screen();
    return 0;
}
