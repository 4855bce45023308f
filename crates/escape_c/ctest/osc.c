/* SPDX-License-Identifier: MIT */
/*
 * Reads operating system commands by escape_stream.h, compares their fields with what is wanted,
 * and writes them again.
 *
 *     osc
 *
 * Each command in every room, with guards beside it; each request for memory is refused in turn.
 * Prints a line for each difference; the status is 1 where there is one. Link it with
 * -Wl,--wrap=malloc,--wrap=realloc,--wrap=free, by which it counts, refuses, and sees that all was
 * given back.
 */
#define PROGRAM "osc"
#define INTRODUCER "\x1b]"
#include "writes.h"

#define KIND(name) [ESCAPE_STREAM_OSC_##name] = #name
static const char *const KINDS[] = {
    KIND(UNSPECIFIED),
    KIND(SET_ICON_NAME_AND_WINDOW_TITLE),
    KIND(SET_WINDOW_TITLE),
    KIND(SET_WINDOW_TITLE_SUN),
    KIND(SET_ICON_NAME),
    KIND(SET_ICON_NAME_SUN),
    KIND(SET_HYPERLINK),
    KIND(CLEAR_SELECTION),
    KIND(QUERY_SELECTION),
    KIND(SET_SELECTION),
    KIND(SYSTEM_NOTIFICATION),
    KIND(CHANGE_COLOR_NUMBER),
    KIND(CHANGE_DYNAMIC_COLORS),
    KIND(RESET_DYNAMIC_COLOR),
    KIND(CURRENT_WORKING_DIRECTORY),
    KIND(RESET_COLORS),
    KIND(RXVT_EXTENSION),
    KIND(CONEMU_PROGRESS),
    KIND(PROMPT_FRESH_LINE),
    KIND(PROMPT_FRESH_LINE_AND_START_PROMPT),
    KIND(PROMPT_END_OF_COMMAND_WITH_FRESH_LINE),
    KIND(PROMPT_START_PROMPT),
    KIND(PROMPT_START_OF_INPUT_UNTIL_NEXT_MARKER),
    KIND(PROMPT_START_OF_INPUT_UNTIL_END_OF_LINE),
    KIND(PROMPT_START_OF_OUTPUT),
    KIND(PROMPT_COMMAND_STATUS),
    KIND(ITERM_SET_MARK),
    KIND(ITERM_STEAL_FOCUS),
    KIND(ITERM_CLEAR_SCROLLBACK),
    KIND(ITERM_CURRENT_DIR),
    KIND(ITERM_SET_PROFILE),
    KIND(ITERM_COPY_TO_CLIPBOARD),
    KIND(ITERM_END_COPY),
    KIND(ITERM_HIGHLIGHT_CURSOR_LINE),
    KIND(ITERM_REQUEST_CELL_SIZE),
    KIND(ITERM_REPORT_CELL_SIZE),
    KIND(ITERM_COPY),
    KIND(ITERM_REPORT_VARIABLE),
    KIND(ITERM_SET_USER_VAR),
    KIND(ITERM_SET_BADGE_FORMAT),
    KIND(ITERM_FILE),
    KIND(ITERM_SET_UNICODE_VERSION),
    KIND(ITERM_PUSH_UNICODE_VERSION),
    KIND(ITERM_POP_UNICODE_VERSION),
};

static const char *kind_name(uint32_t kind) { return KINDS[kind]; }

static uint32_t read_text(
    const uint8_t *text, size_t length, struct value *value, struct escape_stream_field *fields,
    size_t field_room, uint8_t *out, size_t capacity) {
    struct escape_stream_osc osc;
    uint32_t status;
    memset(&osc, JUNK, sizeof osc);
    status = escape_stream_read_osc(text, length, &osc, fields, field_room, out, capacity);
    if (status == ESCAPE_STREAM_DONE)
        *value = (struct value){osc.kind, osc.field_count, osc.text_length};
    else
        memcpy(value, &osc, sizeof osc);
    return status;
}

static uint32_t write_text(
    const struct value *value, const struct escape_stream_field *fields, const uint8_t *texts,
    uint8_t *out, size_t capacity, size_t *needed) {
    return escape_stream_write_osc(
        value->kind, fields, value->field_count, texts, value->text_length, out, capacity, needed);
}

static const struct command COMMANDS[] = {
    {"0;a;b", "SET_ICON_NAME_AND_WINDOW_TITLE TEXT=a;b"},
    {"2;caf\xc3\xa9", "SET_WINDOW_TITLE TEXT=caf\xc3\xa9"},
    {"2;", "SET_WINDOW_TITLE TEXT="},
    {"lsun", "SET_WINDOW_TITLE_SUN TEXT=sun"},
    {"1;icon", "SET_ICON_NAME TEXT=icon"},
    {"Lsun", "SET_ICON_NAME_SUN TEXT=sun"},
    {"8;;", "SET_HYPERLINK"},
    {"8;;http://a/", "SET_HYPERLINK URI=http://a/ IMPLICIT=0"},
    {"8;id=1:b==;u", "SET_HYPERLINK URI=u IMPLICIT=0 KEY=b VALUE== KEY=id VALUE=1"},
    {"52;c", "CLEAR_SELECTION SELECTION=2"},
    {"52;;?", "QUERY_SELECTION SELECTION=24"},
    {"52;p9;aGVsbG8=", "SET_SELECTION SELECTION=8196 TEXT=hello"},
    {"9;done", "SYSTEM_NOTIFICATION TEXT=done"},
    {"4;1;#ff0080;255;?",
     "CHANGE_COLOR_NUMBER PALETTE_INDEX=1 RED=65535 GREEN=0 BLUE=32896 PALETTE_INDEX=255 QUERY=1"},
    {"11;?;rgb:1/2/3",
     "CHANGE_DYNAMIC_COLORS DYNAMIC_COLOR=11 QUERY=1 RED=4369 GREEN=8738 BLUE=13107"},
    {"112", "RESET_DYNAMIC_COLOR DYNAMIC_COLOR=12"},
    {"7;file:///tmp", "CURRENT_WORKING_DIRECTORY DIRECTORY=file:///tmp"},
    {"104", "RESET_COLORS"},
    {"104;0;255", "RESET_COLORS PALETTE_INDEX=0 PALETTE_INDEX=255"},
    {"777;notify;a;b", "RXVT_EXTENSION PART=notify PART=a PART=b"},
    {"9;4;0", "CONEMU_PROGRESS PROGRESS_STATE=0"},
    {"9;4;1;50", "CONEMU_PROGRESS PROGRESS_STATE=1 PERCENT=50"},
    {"9;4;2;7", "CONEMU_PROGRESS PROGRESS_STATE=2 PERCENT=7"},
    {"9;4;3", "CONEMU_PROGRESS PROGRESS_STATE=3"},
    {"9;4;4", "CONEMU_PROGRESS PROGRESS_STATE=4"},
    {"133;L", "PROMPT_FRESH_LINE"},
    {"133;A", "PROMPT_FRESH_LINE_AND_START_PROMPT"},
    {"133;A;aid=sh;cl=line", "PROMPT_FRESH_LINE_AND_START_PROMPT APPLICATION=sh CLICK=0"},
    {"133;N;cl=w", "PROMPT_END_OF_COMMAND_WITH_FRESH_LINE CLICK=3"},
    {"133;P;k=i", "PROMPT_START_PROMPT PROMPT_KIND=0"},
    {"133;P;k=s", "PROMPT_START_PROMPT PROMPT_KIND=3"},
    {"133;B", "PROMPT_START_OF_INPUT_UNTIL_NEXT_MARKER"},
    {"133;I", "PROMPT_START_OF_INPUT_UNTIL_END_OF_LINE"},
    {"133;C;aid=7", "PROMPT_START_OF_OUTPUT APPLICATION=7"},
    {"133;D;-1;aid=7", "PROMPT_COMMAND_STATUS STATUS=-1 APPLICATION=7"},
    {"133;D", "PROMPT_COMMAND_STATUS STATUS=0"},
    {"1337;SetMark", "ITERM_SET_MARK"},
    {"1337;StealFocus", "ITERM_STEAL_FOCUS"},
    {"1337;ClearScrollback", "ITERM_CLEAR_SCROLLBACK"},
    {"1337;CurrentDir=/tmp", "ITERM_CURRENT_DIR DIRECTORY=/tmp"},
    {"1337;SetProfile=a=b", "ITERM_SET_PROFILE NAME=a=b"},
    {"1337;CopyToClipboard=find", "ITERM_COPY_TO_CLIPBOARD NAME=find"},
    {"1337;EndCopy", "ITERM_END_COPY"},
    {"1337;HighlightCursorLine=yes", "ITERM_HIGHLIGHT_CURSOR_LINE HIGHLIGHTED=1"},
    {"1337;ReportCellSize", "ITERM_REQUEST_CELL_SIZE"},
    {"1337;ReportCellSize=12.5;6", "ITERM_REPORT_CELL_SIZE CELL_HEIGHT=125 CELL_WIDTH=60"},
    {"1337;ReportCellSize=1;2;2.0", "ITERM_REPORT_CELL_SIZE CELL_HEIGHT=10 CELL_WIDTH=20 SCALE=20"},
    {"1337;Copy=;aGVsbG8=", "ITERM_COPY TEXT=hello"},
    {"1337;SetUserVar=a=aGVsbG8=", "ITERM_SET_USER_VAR NAME=a VALUE=hello"},
    {"1337;SetBadgeFormat=aGVsbG8=", "ITERM_SET_BADGE_FORMAT TEXT=hello"},
    {"1337;File=:AAH/",
     "ITERM_FILE PRESERVE_ASPECT_RATIO=1 INLINE=0 DO_NOT_MOVE_CURSOR=0 CONTENT=[00][01][ff]"},
    {"1337;File=name=YQ==;size=18446744073709551615;width=-2;height=50%;preserveAspectRatio=0;"
     "inline=1;doNotMoveCursor=1:aGk=",
     "ITERM_FILE NAME=a SIZE=18446744073709551615 WIDTH_CELLS=-2 HEIGHT_PERCENT=50 "
     "PRESERVE_ASPECT_RATIO=0 INLINE=1 "
     "DO_NOT_MOVE_CURSOR=1 CONTENT=hi"},
    {"1337;File=width=3px;height=4px:",
     "ITERM_FILE WIDTH_PIXELS=3 HEIGHT_PIXELS=4 PRESERVE_ASPECT_RATIO=1 INLINE=0 "
     "DO_NOT_MOVE_CURSOR=0 CONTENT="},
    {"1337;File=width=3%;height=4:",
     "ITERM_FILE WIDTH_PERCENT=3 HEIGHT_CELLS=4 PRESERVE_ASPECT_RATIO=1 INLINE=0 "
     "DO_NOT_MOVE_CURSOR=0 CONTENT="},
    {"1337;UnicodeVersion=9", "ITERM_SET_UNICODE_VERSION VERSION=9"},
    {"1337;UnicodeVersion=push a", "ITERM_PUSH_UNICODE_VERSION LABEL=a"},
    {"1337;UnicodeVersion=pop", "ITERM_POP_UNICODE_VERSION"},
    {"", "UNSPECIFIED"},
    {"02;a", "UNSPECIFIED PART=02 PART=a"},
    {"2;\xff", "UNSPECIFIED PART=2 PART=[ff]"},
};

/* Fields that say no command, or one that is not writable. */
static const struct refusal REFUSALS[] = {
    {44, {TEXT(TEXT, 0, 1)}, 1, "a", ESCAPE_STREAM_NO_COMMAND},
    {UINT32_MAX, {TEXT(TEXT, 0, 1)}, 1, "a", ESCAPE_STREAM_NO_COMMAND},
    {ESCAPE_STREAM_OSC_SET_WINDOW_TITLE, {TEXT(TEXT, 0, 1)}, 0, "", ESCAPE_STREAM_NO_COMMAND},
    {ESCAPE_STREAM_OSC_SET_WINDOW_TITLE, {TEXT(TEXT, 0, 1)}, 1, "ab", ESCAPE_STREAM_NO_COMMAND},
    {ESCAPE_STREAM_OSC_SET_WINDOW_TITLE, {TEXT(TEXT, 0, 3)}, 1, "ab", ESCAPE_STREAM_NO_COMMAND},
    {ESCAPE_STREAM_OSC_SET_WINDOW_TITLE, {TEXT(TEXT, 1, 1)}, 1, "ab", ESCAPE_STREAM_NO_COMMAND},
    {ESCAPE_STREAM_OSC_SET_WINDOW_TITLE,
     {TEXT(TEXT, 0, SIZE_MAX)},
     1,
     "a",
     ESCAPE_STREAM_NO_COMMAND},
    {ESCAPE_STREAM_OSC_SET_WINDOW_TITLE,
     {TEXT(TEXT, SIZE_MAX, 1)},
     1,
     "a",
     ESCAPE_STREAM_NO_COMMAND},
    {ESCAPE_STREAM_OSC_SET_WINDOW_TITLE, {TEXT(NAME, 0, 1)}, 1, "a", ESCAPE_STREAM_NO_COMMAND},
    {ESCAPE_STREAM_OSC_SET_WINDOW_TITLE,
     {TEXT(TEXT, 0, 1), TEXT(TEXT, 1, 1)},
     2,
     "ab",
     ESCAPE_STREAM_NO_COMMAND},
    {ESCAPE_STREAM_OSC_SET_WINDOW_TITLE, {TEXT(TEXT, 0, 1)}, 1, "\xff", ESCAPE_STREAM_NO_COMMAND},
    {ESCAPE_STREAM_OSC_SET_WINDOW_TITLE, {TEXT(TEXT, 0, 1)}, 1, "\x1b", ESCAPE_STREAM_NOT_WRITABLE},
    {ESCAPE_STREAM_OSC_SET_WINDOW_TITLE,
     {TEXT(TEXT, 0, 2)},
     1,
     "\xc2\x9c",
     ESCAPE_STREAM_NOT_WRITABLE},
    {ESCAPE_STREAM_OSC_SYSTEM_NOTIFICATION,
     {TEXT(TEXT, 0, 3)},
     1,
     "a;b",
     ESCAPE_STREAM_NOT_WRITABLE},
    {ESCAPE_STREAM_OSC_ITERM_REPORT_VARIABLE,
     {TEXT(NAME, 0, 1)},
     1,
     "a",
     ESCAPE_STREAM_NOT_WRITABLE},
    {ESCAPE_STREAM_OSC_UNSPECIFIED,
     {TEXT(PART, 0, 1), TEXT(PART, 1, 1)},
     2,
     "2a",
     ESCAPE_STREAM_NOT_WRITABLE},
    {ESCAPE_STREAM_OSC_CLEAR_SELECTION,
     {NUMBER(SELECTION, 65536)},
     1,
     "",
     ESCAPE_STREAM_NO_COMMAND},
    {ESCAPE_STREAM_OSC_CLEAR_SELECTION, {NUMBER(SELECTION, -1)}, 1, "", ESCAPE_STREAM_NO_COMMAND},
    {ESCAPE_STREAM_OSC_CLEAR_SELECTION, {NUMBER(SELECTION, 1)}, 1, "", ESCAPE_STREAM_NOT_WRITABLE},
    {ESCAPE_STREAM_OSC_RESET_DYNAMIC_COLOR,
     {NUMBER(DYNAMIC_COLOR, 20)},
     1,
     "",
     ESCAPE_STREAM_NO_COMMAND},
    {ESCAPE_STREAM_OSC_RESET_COLORS, {NUMBER(PALETTE_INDEX, 256)}, 1, "", ESCAPE_STREAM_NO_COMMAND},
    {ESCAPE_STREAM_OSC_CONEMU_PROGRESS,
     {NUMBER(PROGRESS_STATE, 5)},
     1,
     "",
     ESCAPE_STREAM_NO_COMMAND},
    {ESCAPE_STREAM_OSC_CONEMU_PROGRESS,
     {NUMBER(PROGRESS_STATE, 1), NUMBER(PERCENT, 101)},
     2,
     "",
     ESCAPE_STREAM_NOT_WRITABLE},
    {ESCAPE_STREAM_OSC_PROMPT_COMMAND_STATUS,
     {NUMBER(STATUS, INT64_C(2147483648))},
     1,
     "",
     ESCAPE_STREAM_NO_COMMAND},
    {ESCAPE_STREAM_OSC_SET_HYPERLINK,
     {TEXT(URI, 0, 1), NUMBER(IMPLICIT, 1)},
     2,
     "u",
     ESCAPE_STREAM_NOT_WRITABLE},
    {ESCAPE_STREAM_OSC_SET_HYPERLINK,
     {TEXT(URI, 0, 1), NUMBER(IMPLICIT, 0), TEXT(KEY, 1, 1)},
     3,
     "uk",
     ESCAPE_STREAM_NO_COMMAND},
};

int main(void) {
    size_t count = sizeof COMMANDS / sizeof *COMMANDS;
    for (size_t i = 0; i < count; i++)
        /* Bytes that are no UTF-8 would be written as U+FFFD. */
        check_back(COMMANDS[i].text, !strchr(COMMANDS[i].text, '\xff'));
    check_no_commands(REFUSALS, sizeof REFUSALS / sizeof *REFUSALS);
    return check_all(COMMANDS, count);
}
