/* SPDX-License-Identifier: MIT */
/*
 * Finds every control string of a page, docs/FUNCTIONS.md, under its name, by its bytes, by its
 * name and by its row, and strings that have none.
 */
#include "escape_stream.h"
#include <stdio.h>
#include <stdlib.h>
#include <string.h>

#define CELLS 6

/* A row of the page: its cells, without the spaces around them. */
static char *cells[CELLS];

static void fail(const char *what, const char *name)
{
    fprintf(stderr, "%s: %s\n", name, what);
    exit(1);
}

/* Takes the backslashes before `|` out of a cell. */
static void unescape(char *cell)
{
    char *to = cell;
    for (; *cell != '\0'; cell++)
        if (cell[0] != '\\' || cell[1] != '|')
            *to++ = *cell;
    *to = '\0';
}

static int split(char *line)
{
    int count = 0;
    for (char *at = line + 2, *end; count < CELLS && (end = strstr(at, " |")) != NULL; at = end + 3)
    {
        while (end[-1] == '\\' && (end = strstr(end + 1, " |")) != NULL)
            ;
        if (end == NULL)
            break;
        *end = '\0';
        cells[count++] = at;
    }
    for (int i = 0; i < count; i++)
        unescape(cells[i]);
    return count;
}

/* Compares a row that was found with that of the page, and looks it up by name and by place. */
static void compare(bool is_there, const struct escape_stream_string_info *found, size_t row)
{
    struct escape_stream_string_info other;
    char *alone = strstr(cells[2], "; alone: ");
    if (alone != NULL)
        *alone = '\0';
    if (!is_there)
        fail("not found", cells[1]);
    if (strcmp(found->name, cells[1]) != 0 || found->row != row)
        fail(found->name, cells[1]);
    if (strcmp(found->phrase, cells[2]) != 0)
        fail(found->phrase, cells[1]);
    if (!escape_stream_string_named((const uint8_t *)cells[1], strlen(cells[1]), &other) ||
        memcmp(&other, found, sizeof other) != 0)
        fail("not found by its name", cells[1]);
    if (!escape_stream_string_row(row, &other) || memcmp(&other, found, sizeof other) != 0)
        fail("not found by its row", cells[1]);
}

/* The words of a sequence of the page but the first, and `..`, one after another. */
static size_t joined(char *shape, char *text)
{
    size_t length = 0;
    shape[strlen(shape) - 1] = '\0';
    strtok(shape + 1, " ");
    for (char *word = strtok(NULL, " "); word != NULL; word = strtok(NULL, " "))
        if (strcmp(word, "..") != 0)
            length += (size_t)sprintf(text + length, "%s", word);
    return length;
}

/* A device control string: digits, one or two bytes, and then what its data begin with. */
static bool device(char *shape, struct escape_stream_string_info *out)
{
    uint8_t marks[3] = {0};
    size_t kept = 0, count = 0;
    int64_t number = 0;
    const char *data = "";
    shape[strlen(shape) - 1] = '\0';
    strtok(shape + 1, " ");
    for (char *word = strtok(NULL, " "); word != NULL; word = strtok(NULL, " ")) {
        if (strcmp(word, "..") == 0)
            continue;
        if (word[0] >= '0' && word[0] <= '9') {
            number = atoi(word);
            count = 1;
        } else if (word[1] == '\0' && kept < 3) {
            marks[kept++] = (uint8_t)word[0];
        } else {
            data = word;
        }
    }
    return escape_stream_dcs_function(
        0, kept > 1 ? marks[0] : 0, marks[kept - 1], &number, count, (const uint8_t *)data,
        strlen(data), out);
}

static size_t read_page(FILE *page)
{
    static char line[4096], text[256];
    struct escape_stream_string_info found;
    size_t row = 0, length;
    while (fgets(line, sizeof line, page) != NULL) {
        bool is_osc = strncmp(line, "| `OSC ", 7) == 0, is_dcs = strncmp(line, "| `DCS ", 7) == 0;
        if (!is_osc && !is_dcs && strncmp(line, "| `APC ", 7) != 0)
            continue;
        if (split(line) < 4)
            fail("a row with too few cells", line);
        memset(&found, 0x55, sizeof found);
        if (is_dcs) {
            compare(device(cells[0], &found), &found, row++);
            continue;
        }
        length = joined(cells[0], text);
        compare(
            is_osc ? escape_stream_osc_function((uint8_t *)text, length, &found)
                   : escape_stream_apc_function((uint8_t *)text, length, &found),
            &found, row++);
    }
    return row;
}

/* No row, and zeros. */
static void has_none(bool is_there, const struct escape_stream_string_info *found)
{
    static const struct escape_stream_string_info zeros;
    if (is_there || memcmp(found, &zeros, sizeof zeros) != 0)
        fail("a row of none", found->name);
}

static void find_none(size_t rows)
{
    static const char *const texts[] = {"", ";", "4711;x", "52c", "x", "99999999999;x"};
    struct escape_stream_string_info found;
    const int64_t params[2] = {0, 0};
    for (size_t i = 0; i < sizeof texts / sizeof *texts; i++) {
        memset(&found, 0x55, sizeof found);
        has_none(
            escape_stream_osc_function((const uint8_t *)texts[i], strlen(texts[i]), &found),
            &found);
    }
    has_none(escape_stream_apc_function((const uint8_t *)"x", 1, &found), &found);
    has_none(escape_stream_string_row(rows, &found), &found);
    has_none(escape_stream_string_row(SIZE_MAX, &found), &found);
    has_none(escape_stream_string_named((const uint8_t *)"OSC", 3, &found), &found);
    has_none(
        escape_stream_dcs_function(0, '$', 'w', params, 2, (const uint8_t *)"", 0, &found), &found);
    /* The reports of a setting and of the terminal's state, by their parameters. */
    if (!escape_stream_dcs_function(0, '$', 'r', params, 2, (const uint8_t *)"", 0, &found) ||
        strcmp(found.name, "DECRPSS") != 0 || found.key != 0x12472)
        fail("another row", found.name);
    if (!escape_stream_osc_function((const uint8_t *)"052;c;YQ==", 10, &found) ||
        strcmp(found.name, "OSC 52") != 0 || found.key != 52)
        fail("another row", found.name);
}

int main(int argc, char **argv)
{
    FILE *page = argc == 2 ? fopen(argv[1], "r") : NULL;
    if (page == NULL)
        return 2;
    size_t rows = read_page(page);
    fclose(page);
    find_none(rows);
    if (rows == 0)
        fail("no rows", argv[1]);
    return 0;
}
