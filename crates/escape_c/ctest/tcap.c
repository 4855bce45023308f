/* SPDX-License-Identifier: MIT */
/*
 * Reads termcap queries by escape_stream.h, compares their names with what is wanted, and writes
 * them again.
 *
 *     tcap
 *
 * Each query in every room, with guards beside it; each request for memory is refused in turn.
 * Prints a line for each difference; the status is 1 where there is one. Link it with
 * -Wl,--wrap=malloc,--wrap=realloc,--wrap=free, by which it counts, refuses, and sees that all was
 * given back.
 */
#define PROGRAM "tcap"
#define INTRODUCER "\x1bP+q"
#include "writes.h"

static const char *kind_name(uint32_t kind) { return kind == 0 ? "QUERY" : "?"; }

static uint32_t read_text(
    const uint8_t *text, size_t length, struct value *value, struct escape_stream_field *fields,
    size_t field_room, uint8_t *out, size_t capacity) {
    struct escape_stream_query query;
    uint32_t status;
    memset(&query, JUNK, sizeof query);
    status = escape_stream_read_tcap(text, length, &query, fields, field_room, out, capacity);
    if (status == ESCAPE_STREAM_DONE)
        *value = (struct value){0, query.name_count, query.text_length};
    else
        memcpy(&value->field_count, &query, sizeof query);
    return status;
}

static uint32_t write_text(
    const struct value *value, const struct escape_stream_field *fields, const uint8_t *texts,
    uint8_t *out, size_t capacity, size_t *needed) {
    return escape_stream_write_tcap(
        fields, value->field_count, texts, value->text_length, out, capacity, needed);
}

static const struct command COMMANDS[] = {
    {"", "QUERY NAME="},
    {"544e", "QUERY NAME=TN"},
    {"544E;436f", "QUERY NAME=TN NAME=Co"},
    {"544", "QUERY NAME=544"},
    {"zz;;62", "QUERY NAME=zz NAME= NAME=b"},
    {"ff", "QUERY NAME=\xef\xbf\xbd"},
    {"c3a9", "QUERY NAME=\xc3\xa9"},
};

static const struct refusal REFUSALS[] = {
    {0, {TEXT(NAME, 0, 1)}, 0, "", ESCAPE_STREAM_NOT_WRITABLE},
    {0, {TEXT(NAME, 0, 1)}, 0, "a", ESCAPE_STREAM_NO_COMMAND},
    {0, {TEXT(NAME, 0, 1)}, 1, "ab", ESCAPE_STREAM_NO_COMMAND},
    {0, {TEXT(NAME, 1, 1)}, 1, "ab", ESCAPE_STREAM_NO_COMMAND},
    {0, {TEXT(NAME, 0, SIZE_MAX)}, 1, "a", ESCAPE_STREAM_NO_COMMAND},
    {0, {TEXT(TEXT, 0, 1)}, 1, "a", ESCAPE_STREAM_NO_COMMAND},
    {0, {NUMBER(NAME, 1)}, 1, "", ESCAPE_STREAM_NO_COMMAND},
    {0, {TEXT(NAME, 0, 1)}, 1, "\xff", ESCAPE_STREAM_NO_COMMAND},
};

int main(void) {
    size_t count = sizeof COMMANDS / sizeof *COMMANDS;
    for (size_t i = 0; i < count; i++)
        check_back(COMMANDS[i].text, true);
    check_no_commands(REFUSALS, sizeof REFUSALS / sizeof *REFUSALS);
    return check_all(COMMANDS, count);
}
