/* SPDX-License-Identifier: MIT */
/* The streams of tables, text files whose form docs/DEVELOPING.md gives. */
#include "hard.h"

#include <stdio.h>
#include <stdlib.h>
#include <string.h>

enum { MOST_ROWS = 2048, MOST_OF_ROW = 4096, MOST_OF_ALL = 1 << 20 };

static uint8_t all[MOST_OF_ALL];
static struct bytes rows[MOST_ROWS];
static size_t used, count;

/* The value of a hexadecimal digit. */
static unsigned digit(char c) {
    return (unsigned)(c <= '9' ? c - '0' : c - 'a' + 10);
}

/* Reads a text: \xNN is a byte, \\ is \, any other byte is itself. */
static size_t unescaped(const char *text, uint8_t *to) {
    size_t length = 0;
    while (*text && *text != '\n') {
        bool is_number = text[0] == '\\' && text[1] == 'x';
        text += text[0] == '\\' && !is_number;
        to[length++] = is_number ? (uint8_t)(digit(text[2]) * 16 + digit(text[3])) : (uint8_t)*text;
        text += is_number ? 4 : 1;
    }
    return length;
}

/* Adds a line to the row at hand. Of a row that is longer only the beginning is kept. */
static void add_line(const char *line, size_t *length) {
    static uint8_t one[1 << 16];
    size_t head = strcspn(line, " \n"), more = unescaped(line + head + strspn(line + head, " "), one);
    size_t times = line[6] == '*' ? strtoul(line + 7, NULL, 10) : 1;
    for (; times > 0 && more > 0 && *length + more <= MOST_OF_ROW; times--, *length += more)
        memcpy(all + used + *length, one, more);
}

static void end_row(size_t *length) {
    if (*length == 0)
        return;
    rows[count++] = (struct bytes){all + used, *length};
    used += *length;
    *length = 0;
    if (count == MOST_ROWS || used + MOST_OF_ROW > MOST_OF_ALL) {
        fputs("hard: the tables are too large for this program\n", stderr);
        exit(2);
    }
}

void read_table(const char *path) {
    static char line[1 << 16];
    FILE *file = fopen(path, "r");
    size_t length = 0;
    if (!file) {
        perror(path);
        exit(2);
    }
    while (fgets(line, sizeof line, file))
        if (line[0] == '\n')
            end_row(&length);
        else if (strncmp(line, "stream", 6) == 0 && (line[6] == ' ' || line[6] == '*'))
            add_line(line, &length);
    end_row(&length);
    fclose(file);
}

/* A stream of the tables. */
struct bytes table_stream(void) {
    return count ? rows[below(count)] : (struct bytes){all, 0};
}
