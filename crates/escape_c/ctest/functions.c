/* SPDX-License-Identifier: MIT */
/*
 * Finds every control function of a page, docs/FUNCTIONS.md, under its name, and what it says of
 * it, but for escape sequences of two intermediates, for which there is no call; and looks for each
 * sequence that there can be, of which only those of the page have a name.
 */
#include "escape_stream.h"
#include <stdio.h>
#include <stdlib.h>
#include <string.h>

#define CELLS 7

/* A row of the page: its cells, without the spaces around them. */
static char *cells[CELLS];

static int split(char *line)
{
    int count = 0;
    char *at = line;
    while (count < CELLS && (at = strstr(at, "| ")) != NULL) {
        char *end;
        for (end = at + 2; *end != '\0' && !(end[0] == '|' && end[-1] != '\\'); end++)
            ;
        if (*end == '\0')
            break;
        cells[count++] = at + 2;
        at = end;
    }
    for (int i = 0; i < count; i++) {
        char *end;
        for (end = cells[i]; !(end[0] == '|' && end[-1] != '\\'); end++)
            ;
        while (end > cells[i] && end[-1] == ' ')
            end--;
        *end = '\0';
    }
    return count;
}

/* The characters of a sequence as the page has it, after its first word; `SP` is a space, and `..`
 * none of them. */
static size_t characters(char *shape, uint8_t *found)
{
    size_t count = 0, ticks = shape[1] == '`' ? 3 : 1;
    shape[strlen(shape) - ticks] = '\0';
    strtok(shape + ticks, " ");
    for (char *word = strtok(NULL, " "); word != NULL; word = strtok(NULL, " ")) {
        if (strcmp(word, "..") != 0)
            found[count++] = strcmp(word, "SP") == 0 ? ' ' : (uint8_t)word[strlen(word) - 1];
    }
    return count;
}

/* The parameters and separators that a cell tells of. */
static size_t entries(const char *cell)
{
    size_t count = cell[0] != '\0';
    for (; *cell != '\0'; cell++)
        count += *cell == ';' ? 2 : 0;
    return count;
}

static void fail(const char *what, const char *name)
{
    fprintf(stderr, "%s: %s\n", name, what);
    exit(1);
}

/* Compares a row that was written with that of the page. */
static void compare(
    const struct escape_stream_function_info *function, const char *name, const char *phrase,
    const char *effect) {
    if (strcmp(function->name, name) != 0)
        fail(function->name, name);
    if (strcmp(function->phrase, phrase) != 0)
        fail(function->phrase, name);
    if (function->changes_screen != (strcmp(effect, "screen") == 0) ||
        function->is_answered != (strcmp(effect, "answered") == 0))
        fail("other flags", name);
}

static bool is_prefix(uint8_t byte) { return byte >= '<' && byte <= '?'; }

static int read_page(FILE *page)
{
    static char line[1024];
    struct escape_stream_function_info function;
    int rows = 0;
    while (fgets(line, sizeof line, page) != NULL) {
        uint8_t bytes[8], prefix = 0, intermediate = 0;
        bool is_control = strncmp(line, "| `CSI ", 7) == 0 || strncmp(line, "| `` CSI ", 9) == 0;
        if (!is_control && strncmp(line, "| `ESC ", 7) != 0 && strncmp(line, "| `` ESC ", 9) != 0)
            continue;
        if (split(line) < 6)
            fail("a row with too few cells", line);
        bool has_more = strstr(cells[0], "..") != NULL;
        size_t count = characters(cells[0], bytes), at = 0;
        if (is_control) {
            if (is_prefix(bytes[0]))
                prefix = bytes[at++];
            if (count - at == 2)
                intermediate = bytes[at++];
            if (!escape_stream_function(
                    prefix, intermediate, bytes[at], entries(cells[3]), &function))
                fail("not found", cells[1]);
            compare(&function, cells[1], cells[2], cells[4]);
        } else if (count == 1 || !has_more) {
            if (count == 2 || has_more)
                intermediate = bytes[at++];
            if (!escape_stream_escape_function(intermediate, has_more ? 'B' : bytes[at], &function))
                fail("not found", cells[2]);
            compare(&function, cells[2], cells[3], cells[4]);
        }
        rows++;
    }
    return rows;
}

/* How many of all sequences have a name, each of them with no, one and five entries. */
static int named_sequences(void)
{
    static const uint8_t prefixes[] = {0, '<', '=', '>', '?'};
    static const size_t counts[] = {0, 1, 5};
    struct escape_stream_function_info function, zeros;
    char last[16] = "";
    int found = 0;
    memset(&zeros, 0, sizeof zeros);
    for (int final = 0; final < 256; final++)
        for (int intermediate = 0; intermediate < '0'; intermediate += intermediate == 0 ? ' ' : 1)
            for (size_t p = 0; p < sizeof prefixes; p++)
                for (size_t c = 0; c < 3; c++) {
                    memset(&function, 0x55, sizeof function);
                    bool there = escape_stream_function(
                        prefixes[p], (uint8_t)intermediate, (uint8_t) final, counts[c], &function);
                    if (!there && memcmp(&function, &zeros, sizeof zeros) != 0)
                        fail("no zeros", "no function");
                    if (there && (c == 0 || strcmp(function.name, last) != 0))
                        found++;
                    strcpy(last, function.name);
                }
    return found;
}

int main(int argc, char **argv)
{
    FILE *page = argc == 2 ? fopen(argv[1], "r") : NULL;
    if (page == NULL)
        return 2;
    int rows = read_page(page), controls = named_sequences();
    fclose(page);
    if (rows != 308 || controls != 223) {
        fprintf(stderr, "%d rows, %d control sequences with a name\n", rows, controls);
        return 1;
    }
    return 0;
}
