#include "escape_stream_screen.h"
#include <stdio.h>

static void print_row(struct escape_stream_screen *screen, size_t row)
{
    static uint8_t text[4096];
    static struct escape_stream_cell cells[80];
    size_t length = 0, count = 0, bold = 0;

    escape_stream_screen_text(screen, row, text, sizeof text, &length);
    if (length == 0)
        return;
    escape_stream_screen_cells(screen, row, cells, 80, &count);
    for (size_t i = 0; i < count; i++)
        bold += cells[i].bold;
    printf("%d: %.*s (%d bold)\n", (int)row, (int)length, (const char *)text, (int)bold);
}

int main(void)
{
    struct escape_stream_screen screen = ESCAPE_STREAM_SCREEN_INIT;
    struct escape_stream_screen_state state;
    static uint8_t bytes[4096];
    size_t length;

    if (escape_stream_screen_begin(&screen, 80, 24, 0) != ESCAPE_STREAM_DONE)
        return 1;
    while ((length = fread(bytes, 1, sizeof bytes, stdin)) > 0)
        if (escape_stream_screen_feed(&screen, bytes, length) != ESCAPE_STREAM_DONE)
            return 1;
    for (size_t row = 0; row < 24; row++)
        print_row(&screen, row);
    if (escape_stream_screen_state_of(&screen, &state) == ESCAPE_STREAM_DONE)
        printf("row %d, column %d\n", state.cursor_row, state.cursor_column);
    escape_stream_screen_end(&screen);
    return 0;
}
