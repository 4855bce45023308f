// SPDX-License-Identifier: MIT
// The time that the parser of libvterm takes for a stream: `libvterm FILE CHUNK PASSES`, as vte.rs
// says. The parser alone: no state and no screen. libvterm hands its text callback all that is
// left, and takes the number of bytes that it took; its own next layer decodes UTF-8 there and
// stops at a control, so this does too.
#include <stdio.h>
#include <stdlib.h>
#include <vterm.h>

struct count {
    unsigned long characters, events, sum;
    unsigned more, code;
};

// Adds up the characters of the bytes up to the first control.
static int text(const char *bytes, size_t length, void *user)
{
    struct count *count = user;
    unsigned long characters = 0, sum = 0;
    unsigned more = count->more, code = count->code;
    size_t at = 0;
    for (; at < length; at++) {
        unsigned char byte = bytes[at];
        if (byte < 0x20 || byte == 0x7f)
            break;
        if (byte < 0x80 && !more) {
            characters++;
            sum ^= byte;
            continue;
        }
        if (byte >= 0x80 && byte < 0xc0 && more) {
            code = code << 6 | (byte & 0x3f);
            if (--more == 0) {
                characters++;
                sum ^= code;
            }
            continue;
        }
        if (more) /* a character that was cut off */
            characters++;
        more = 0;
        if (byte < 0x80) {
            characters++;
            sum ^= byte;
        } else if (byte < 0xc0) {
            characters++;
            sum ^= 0xfffd;
        } else {
            more = byte < 0xe0 ? 1 : byte < 0xf0 ? 2 : 3;
            code = byte & (0x3f >> more);
        }
    }
    count->more = more;
    count->code = code;
    count->characters += characters;
    count->sum ^= sum;
    return at;
}

static int add(struct count *count, size_t sum)
{
    count->events++;
    count->sum += sum;
    return 1;
}

static int control(unsigned char byte, void *user) { return add(user, byte); }

static int escape(const char *bytes, size_t length, void *user)
{
    (void)bytes;
    add(user, length);
    return length;
}

static int
csi(const char *leader, const long *args, int count, const char *intermediates, char command,
    void *user) {
    (void)leader, (void)args, (void)intermediates;
    return add(user, count + command);
}

static int string(const char *bytes, size_t length, void *user)
{
    (void)bytes;
    return add(user, length);
}

static const VTermParserCallbacks callbacks = {text, control, escape, csi, string, string, NULL};

int main(int argc, char **argv)
{
    if (argc != 4)
        return 2;
    FILE *file = fopen(argv[1], "rb");
    if (!file || fseek(file, 0, SEEK_END))
        return 1;
    size_t size = ftell(file), chunk = strtoul(argv[2], NULL, 10);
    char *data = malloc(size + 1);
    rewind(file);
    if (!data || fread(data, 1, size, file) != size)
        return 1;
    struct count count = {0};
    for (int pass = atoi(argv[3]); pass > 0; pass--) {
        VTerm *terminal = vterm_new(25, 80);
        vterm_set_utf8(terminal, 1);
        vterm_parser_set_callbacks(terminal, &callbacks, &count);
        for (size_t at = 0; at < size; at += chunk)
            vterm_input_write(terminal, data + at, size - at < chunk ? size - at : chunk);
        vterm_free(terminal);
    }
    printf("%lu %lu %lu\n", count.characters, count.events, count.sum);
    return 0;
}
