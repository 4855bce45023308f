/* SPDX-License-Identifier: MIT */
/*
 * A terminal of 80 columns and 24 lines: text, the movements of the cursor, erasing, colours of the
 * palette, bold, and the title. Reads a stream, and prints the title, the lines of the screen, and
 * each cell that is bold or has a colour.
 */
#include "escape_stream.h"
#include "escape_stream_functions.h"
#include <stdio.h>
#include <string.h>

enum { COLUMNS = 80, LINES = 24, DEFAULT_COLOR = -1 };

struct cell {
    uint32_t character;
    int color;
    bool is_bold;
};

static struct cell screen[LINES][COLUMNS], look = {' ', DEFAULT_COLOR, false};
static int line, column;
static char title[256];

static void erase(int from, int to)
{
    for (int at = from; at < to; at++)
        screen[at / COLUMNS][at % COLUMNS] = (struct cell){' ', DEFAULT_COLOR, false};
}

static void feed_line(void)
{
    if (line < LINES - 1) {
        line++;
        return;
    }
    memmove(screen[0], screen[1], sizeof screen - sizeof screen[0]);
    erase((LINES - 1) * COLUMNS, LINES * COLUMNS);
}

static void put(uint32_t character)
{
    if (column == COLUMNS) {
        column = 0;
        feed_line();
    }
    look.character = character;
    screen[line][column++] = look;
}

static void put_run(const uint8_t *text, size_t length)
{
    uint32_t character = 0;

    for (size_t at = 0, bytes; at < length; at += bytes) {
        bytes = escape_stream_character(text + at, length - at, &character);
        put(character);
    }
}

static int within(int64_t number, int last)
{
    return number < 0 ? 0 : number > last ? last : (int)number;
}

/* A parameter, or what stands for it, held at what no screen has. */
static int value(const struct escape_stream_event *event, uint32_t function, size_t index)
{
    return within(escape_stream_value(event, function, index), 9999);
}

static void render(const struct escape_stream_event *event)
{
    size_t all = escape_stream_parameter_count(event);

    for (size_t i = 0; i < (all > 0 ? all : 1); i++) {
        int64_t number = escape_stream_parameter(event, i, 0, 0);

        if (number == 0)
            look = (struct cell){' ', DEFAULT_COLOR, false};
        else if (number == 1 || number == 22)
            look.is_bold = number == 1;
        else if (number >= 30 && number <= 37)
            look.color = (int)number - 30;
        else if (number == 39)
            look.color = DEFAULT_COLOR;
        else if (number == 38 && escape_stream_parameter(event, i + 1, 0, 0) == 5) {
            look.color = within(escape_stream_parameter(event, i + 2, 0, 0), 255);
            i += 2;
        }
    }
}

static void act(const struct escape_stream_event *event)
{
    int at = line * COLUMNS + within(column, COLUMNS - 1);
    uint32_t function = escape_stream_function_number(event);

    switch (function) {
    case ESCAPE_STREAM_FUNCTION_CUP:
    case ESCAPE_STREAM_FUNCTION_HVP:
        line = within(value(event, function, 0) - 1, LINES - 1);
        column = within(value(event, function, 1) - 1, COLUMNS - 1);
        break;
    case ESCAPE_STREAM_FUNCTION_CHA:
        column = within(value(event, function, 0) - 1, COLUMNS - 1);
        break;
    case ESCAPE_STREAM_FUNCTION_CUU:
        line = within(line - value(event, function, 0), LINES - 1);
        break;
    case ESCAPE_STREAM_FUNCTION_CUD:
        line = within(line + value(event, function, 0), LINES - 1);
        break;
    case ESCAPE_STREAM_FUNCTION_CUF:
        column = within(column + value(event, function, 0), COLUMNS - 1);
        break;
    case ESCAPE_STREAM_FUNCTION_CUB:
        column = within(column - value(event, function, 0), COLUMNS - 1);
        break;
    case ESCAPE_STREAM_FUNCTION_ED:
        erase(value(event, function, 0) == 0 ? at : 0, LINES * COLUMNS);
        break;
    case ESCAPE_STREAM_FUNCTION_EL:
        erase(value(event, function, 0) == 0 ? at : line * COLUMNS,
              (line + 1) * COLUMNS);
        break;
    case ESCAPE_STREAM_FUNCTION_SGR:
        render(event);
        break;
    case ESCAPE_STREAM_ESCAPE_FUNCTION_RIS:
        erase(0, LINES * COLUMNS);
        line = column = 0;
        break;
    }
}

static void control(uint32_t code)
{
    if (code == '\n')
        feed_line();
    else if (code == '\r')
        column = 0;
    else if (code == '\b')
        column = within(column - 1, COLUMNS - 1);
}

static void command(const uint8_t *text, size_t length)
{
    struct escape_stream_osc osc = {0};
    struct escape_stream_field fields[16] = {{0}};
    uint8_t out[sizeof title - 1] = {0};

    if (escape_stream_read_osc(text, length, &osc, fields, 16, out, sizeof out) !=
        ESCAPE_STREAM_DONE)
        return;
    if (osc.kind == ESCAPE_STREAM_OSC_SET_WINDOW_TITLE ||
        osc.kind == ESCAPE_STREAM_OSC_SET_ICON_NAME_AND_WINDOW_TITLE)
        memcpy(title, out, sizeof out);
}

static void take(const uint8_t *bytes, size_t length)
{
    static struct escape_stream_parser parser;
    static struct escape_stream_event event;
    static uint8_t buffer[2 * 65536];
    static bool is_begun;
    size_t at = 0;

    if (!is_begun)
        escape_stream_begin(&parser);
    is_begun = true;
    do {
        size_t taken = escape_stream_next(
            &parser, buffer, sizeof buffer, bytes + at, length - at, &event);
        const uint8_t *text = escape_stream_text(&event, buffer, sizeof buffer, bytes + at);

        if (event.kind == ESCAPE_STREAM_TEXT)
            put_run(text, event.length);
        else if (event.kind == ESCAPE_STREAM_CHARACTER)
            put(event.byte);
        else if (event.kind == ESCAPE_STREAM_CONTROL)
            control(event.byte);
        else if (event.kind == ESCAPE_STREAM_OSC)
            command(text, event.length);
        else
            act(&event);
        at += taken;
    } while (event.kind != ESCAPE_STREAM_NONE && event.kind != ESCAPE_STREAM_FAILED);
}

static void print_line(int at)
{
    int end = COLUMNS;

    while (end > 0 && screen[at][end - 1].character == ' ')
        end--;
    for (int i = 0; i < end; i++) {
        uint8_t out[4];
        fwrite(out, 1, escape_stream_utf8(screen[at][i].character, out), stdout);
    }
    putchar('\n');
}

int main(void)
{
    static uint8_t bytes[4096];
    size_t length;

    erase(0, LINES * COLUMNS);
    while ((length = fread(bytes, 1, sizeof bytes, stdin)) > 0)
        take(bytes, length);
    printf("title: %s\n", title);
    for (int i = 0; i < LINES; i++)
        print_line(i);
    for (int i = 0; i < LINES * COLUMNS; i++) {
        const struct cell *it = &screen[i / COLUMNS][i % COLUMNS];
        if (it->is_bold || it->color != DEFAULT_COLOR)
            printf("%d,%d: %d%s\n", i / COLUMNS, i % COLUMNS, it->color, it->is_bold ? " bold" : "");
    }
    return 0;
}
