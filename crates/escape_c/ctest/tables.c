/* SPDX-License-Identifier: MIT */
/*
 * Checks the calls of escape_stream.h against tables of streams, text files whose form
 * docs/DEVELOPING.md gives.
 *
 *     tables TABLE..
 *
 * The output for each row has to be as the row says, at every capacity, and every other byte has to
 * stay as it was. Each request for memory is refused in turn. Prints a line for each row
 * that differs; the status is 1 where one does. Link it with -Wl,--wrap=malloc,--wrap=realloc, by
 * which it counts and refuses requests.
 */
#include "escape_stream.h"

#include <stdio.h>
#include <stdlib.h>
#include <string.h>

enum {
    GUARD = 32,
    EACH_CAPACITY_UP_TO = 2000,
    EACH_REQUEST_UP_TO = 2000,
    MOST_REQUESTS = 10000,
    LIMIT = 1048576
};

static const char *const WORDS[] = {"as-text", "as-color", "as-screen", "as-all"};

struct bytes {
    uint8_t *at;
    size_t length;
};

/* A call, and what it is expected to write. */
struct call {
    bool filters;
    uint32_t policy;
    size_t limit;
    struct bytes stream;
    struct bytes text;
};

static const char *table, *row;
static unsigned long rows, calls, refusals, differences;

/* Prints the first difference of each row. */
static void differs(const char *what, size_t number) {
    static const char *told;
    if (told != row)
        fprintf(stderr, "%s: %s: %s (%zu)\n", table, row, what, number);
    told = row;
    differences++;
}

/* Requests for memory: the one that is refused, and how many came since it was chosen. */
static unsigned long refused, requests;

void *__real_malloc(size_t size);
void *__real_realloc(void *block, size_t size);
void *__wrap_malloc(size_t size);
void *__wrap_realloc(void *block, size_t size);

void *__wrap_malloc(size_t size) {
    return ++requests == refused ? NULL : __real_malloc(size);
}

void *__wrap_realloc(void *block, size_t size) {
    return ++requests == refused ? NULL : __real_realloc(block, size);
}

static void *room(size_t size) {
    void *block = calloc(size ? size : 1, 1);
    if (!block) {
        fputs("tables: out of memory\n", stderr);
        exit(2);
    }
    return block;
}

static uint8_t mark(size_t i) {
    return (uint8_t)(i * 7 + 0xa5);
}

static uint32_t run(const struct call *call, uint8_t *out, size_t capacity, size_t *needed) {
    calls++;
    if (call->filters)
        return escape_stream_filter(
            call->policy, call->limit, call->stream.at, call->stream.length, out, capacity, needed);
    return escape_stream_normal(call->stream.at, call->stream.length, out, capacity, needed);
}

/* Runs the call with room for this many bytes, between guards. `written` is how many bytes of the
 * text are expected. */
static void check_capacity(
    const struct call *call, size_t capacity, uint32_t status, size_t written, size_t wanted) {
    uint8_t *area = room(GUARD + capacity + GUARD), *out = area + GUARD;
    size_t needed = 99;
    for (size_t i = 0; i < GUARD + capacity + GUARD; i++)
        area[i] = mark(i);
    if (run(call, out, capacity, &needed) != status)
        differs("another status", capacity);
    if (needed != wanted)
        differs("another length is needed", needed);
    if (written && memcmp(out, call->text.at, written) != 0)
        differs("other bytes", capacity);
    for (size_t i = 0; i < GUARD + capacity + GUARD; i++)
        if ((i < GUARD || i >= GUARD + written) && area[i] != mark(i)) {
            differs("a byte past the text was written", i);
            break;
        }
    free(area);
}

static void check_capacities(const struct call *call) {
    size_t length = call->text.length;
    size_t first = length <= EACH_CAPACITY_UP_TO ? 0 : length - 1;
    check_capacity(call, 0, ESCAPE_STREAM_DONE, 0, length);
    for (size_t capacity = first; capacity <= length + 2; capacity++)
        check_capacity(
            call, capacity, ESCAPE_STREAM_DONE, capacity < length ? capacity : length, length);
}

/* Refuses each request for memory in turn: then nothing is written. */
static void check_requests(const struct call *call) {
    if (call->stream.length > EACH_REQUEST_UP_TO)
        return;
    for (unsigned long at = 1; at < MOST_REQUESTS; at++) {
        uint8_t out[8];
        size_t needed = 99;
        uint32_t status;
        memset(out, 0xa5, sizeof out);
        requests = 0;
        refused = at;
        status = run(call, out, sizeof out, &needed);
        refused = 0;
        if (requests < at)
            return;
        if (status == ESCAPE_STREAM_DONE)
            continue;
        refusals++;
        if (status != ESCAPE_STREAM_NO_MEMORY)
            differs("another status where memory is refused", at);
        for (size_t i = 0; i < sizeof out; i++)
            if (out[i] != 0xa5 || needed != 99)
                differs("something was written where memory is refused", at);
    }
}

static void check_call(const struct call *call) {
    check_capacities(call);
    check_requests(call);
}

static void check_is_normal(struct bytes stream, bool wanted) {
    for (int before = 0; before < 2; before++) {
        bool answer = before;
        calls++;
        if (escape_stream_is_normal(stream.at, stream.length, &answer) != ESCAPE_STREAM_DONE)
            differs("another status of is_normal", stream.length);
        if (answer != wanted)
            differs("is_normal is wrong", stream.length);
    }
}

/* The value of a hexadecimal digit. */
static unsigned digit(char c) {
    return (unsigned)(c <= '9' ? c - '0' : c - 'a' + 10);
}

/* Appends what a text stands for, `times` over: \xNN is a byte, \\ is \, any other byte is itself.
 */
static void append(struct bytes *to, const char *text, size_t times) {
    struct bytes one = {room(strlen(text)), 0};
    uint8_t *whole;
    for (const char *c = text; *c; c++) {
        if (c[0] == '\\' && c[1] == 'x') {
            one.at[one.length++] = (uint8_t)(digit(c[2]) * 16 + digit(c[3]));
            c += 3;
        } else {
            c += c[0] == '\\';
            one.at[one.length++] = (uint8_t)*c;
        }
    }
    whole = room(to->length + one.length * times);
    if (to->length)
        memcpy(whole, to->at, to->length);
    for (size_t i = 0; one.length && i < times; i++)
        memcpy(whole + to->length + i * one.length, one.at, one.length);
    to->length += one.length * times;
    free(to->at);
    free(one.at);
    to->at = whole;
}

/* Joins the lines of a block that begin with this word. Returns whether there is one. */
static bool joined(char **lines, size_t count, const char *word, struct bytes *to) {
    bool found = false;
    *to = (struct bytes){room(0), 0};
    for (size_t i = 0; i < count; i++) {
        size_t head = strcspn(lines[i], " *");
        const char *text = lines[i] + strcspn(lines[i], " ");
        if (head != strlen(word) || strncmp(lines[i], word, head) != 0)
            continue;
        found = true;
        append(
            to, text + strspn(text, " "),
            lines[i][head] == '*' ? strtoul(lines[i] + head + 1, NULL, 10) : 1);
    }
    return found;
}

/* The text without what takes back, at its end, what the stream leaves changed, which a filter in
 * chunks gives when it is finished. */
static struct bytes
without_end(uint32_t policy, size_t limit, struct bytes stream, struct bytes text) {
    struct escape_stream_filter_state filter = {0};
    uint8_t *end = room(text.length + 1);
    size_t length;
    calls++;
    if (escape_stream_filter_begin(&filter, policy, limit) != ESCAPE_STREAM_DONE ||
        escape_stream_filter_feed(&filter, stream.at, stream.length) != ESCAPE_STREAM_DONE ||
        escape_stream_filter_finish(&filter) != ESCAPE_STREAM_DONE)
        differs("another status of a filter in chunks", policy);
    length = escape_stream_filter_output(&filter, 0, end, text.length + 1);
    if (length > text.length || memcmp(text.at + text.length - length, end, length) != 0)
        differs("another end", length);
    else
        text.length -= length;
    escape_stream_filter_end(&filter);
    free(end);
    return text;
}

/* A row of what filters write. A line that is left out is as the one before it. */
static void check_filters(char **lines, size_t count, struct bytes stream) {
    struct bytes text = {room(0), 0}, next;
    for (uint32_t policy = 0; policy < 4; policy++) {
        if (joined(lines, count, WORDS[policy], &next)) {
            struct bytes last = text;
            text = next;
            next = last;
        }
        free(next.at);
        check_call(
            &(struct call){true, policy, LIMIT, stream, without_end(policy, LIMIT, stream, text)});
        check_is_normal(text, true);
    }
    for (uint32_t policy = 4; policy; policy += policy)
        check_capacity(
            &(struct call){true, policy, LIMIT, stream, text}, 8, ESCAPE_STREAM_UNKNOWN_POLICY, 0,
            99);
    free(text.at);
}

static void check_row(char **lines, size_t count) {
    struct bytes stream, text, limit, as_text, as_all;
    bool has_stream = joined(lines, count, "stream", &stream),
         has_text = joined(lines, count, "text", &text);
    bool has_limit = joined(lines, count, "limit", &limit),
         has_filters = joined(lines, count, "as-text", &as_text);
    bool has_all = joined(lines, count, "as-all", &as_all);
    append(&limit, "\\x00", 1);
    if (has_filters) {
        check_filters(lines, count, stream);
    } else if (has_limit && has_text) {
        size_t most = strtoul((const char *)limit.at, NULL, 10);
        struct bytes whole = has_all ? as_all : text;
        check_call(&(struct call){true, ESCAPE_STREAM_POLICY_ALL, most, stream,
                                  without_end(ESCAPE_STREAM_POLICY_ALL, most, stream, whole)});
    } else if (has_stream && !has_limit) {
        struct bytes wanted = has_text ? text : stream;
        check_call(&(struct call){false, 0, 0, stream, wanted});
        check_is_normal(
            stream,
            wanted.length == stream.length && memcmp(wanted.at, stream.at, stream.length) == 0);
    }
    rows += has_filters || (has_limit && has_text) || (has_stream && !has_limit);
    free(stream.at);
    free(text.at);
    free(limit.at);
    free(as_text.at);
    free(as_all.at);
}

static char *contents(const char *path) {
    FILE *file = fopen(path, "rb");
    long size;
    char *text;
    if (!file || fseek(file, 0, SEEK_END) != 0 || (size = ftell(file)) < 0) {
        perror(path);
        exit(2);
    }
    rewind(file);
    text = room((size_t)size + 1);
    if (fread(text, 1, (size_t)size, file) != (size_t)size) {
        perror(path);
        exit(2);
    }
    fclose(file);
    return text;
}

/* The rows of a table, between which there are empty lines. */
static void check_table(const char *path) {
    char *text = contents(path), *lines[4096];
    size_t count = 0;
    table = path;
    for (char *line = text, *next; line; line = next) {
        next = strchr(line, '\n');
        if (next)
            *next++ = '\0';
        if (strncmp(line, "row ", 4) == 0)
            row = line + strcspn(line, " ") + strspn(line + 3, " ");
        if (*line && *line != '#' && count < sizeof lines / sizeof *lines)
            lines[count++] = line;
        if (!*line || !next) {
            check_row(lines, count);
            count = 0;
        }
    }
    free(text);
}

int main(int count, char **words) {
    for (int i = 1; i < count; i++)
        check_table(words[i]);
    printf(
        "%lu rows, %lu calls, %lu refusals, %lu differences\n", rows, calls, refusals, differences);
    return differences || !rows || !refusals;
}
