/* SPDX-License-Identifier: MIT */
/* The files of this program share these. hard.c says what the program does. */
#ifndef HARD_H
#define HARD_H

#include <stdbool.h>
#include <stddef.h>
#include <stdint.h>

/* A stream has at most STREAM_ROOM bytes, and no text of one more than TEXT_ROOM. */
enum { PAGE = 4096, STREAM_ROOM = 16384, TEXT_ROOM = 262144, JUNK = 0xa5 };

struct bytes {
    const uint8_t *at;
    size_t length;
};

/* hard.c: the stream at hand, and what was run. `at_hand` is what a failure prints. */
struct run {
    uint64_t seed;
    struct bytes stream;
    const char *call;
    unsigned long long streams, bytes, calls, rooms, refusals;
};
extern struct run at_hand;
_Noreturn void fails(const char *what, size_t number);

/* random.c: numbers that depend on the seed alone. */
void begin_numbers(uint64_t seed);
uint64_t next_number(void);
size_t below(size_t most);
bool one_in(size_t count);

/* guarded.c: memory between pages that nobody may touch. */
struct area {
    uint8_t *at;
    size_t size;
};
struct area guarded(size_t size);
uint8_t *guarded_row(size_t count, size_t size);
uint8_t *placed(const struct area *area, size_t length);
struct bytes lent(struct bytes bytes);

/* allocator.c: the memory that the library asks for. */
extern unsigned long requests, refused;
extern long blocks;
void begin_blocks(void);

/* tables.c, streams.c: the streams. */
void read_table(const char *path);
struct bytes table_stream(void);
struct bytes random_stream(uint64_t seed);

/* A call of the filter or of the normal form, and the stream that it is given. */
struct text_call {
    bool filters;
    uint32_t policy;
    size_t limit;
    struct bytes stream;
};

/* The checks: a file each. */
size_t chunk_length(size_t way, size_t rest);
void begin_events(void);
struct bytes check_events(struct bytes stream);
void begin_texts(void);
void check_texts(struct bytes stream, struct bytes shown);
void begin_chunks(void);
void check_chunks(const struct text_call *call, struct bytes text);
void begin_logs(void);
void check_logs(struct bytes stream);
void begin_screens(void);
void check_screens(struct bytes stream);
void check_functions(void);
void check_strings(void);
void begin_commands(void);
enum reading { COMMANDS, IMAGES, QUERIES };
struct escape_stream_field;
bool reads_as(
    enum reading as, struct bytes text, uint32_t kind, const struct escape_stream_field *fields,
    size_t count, struct bytes texts);
void check_command(enum reading as, struct bytes text);
void check_sixel(struct bytes text);
struct escape_stream_sixel;
struct escape_stream_sixel_item;
void begin_writes(void);
void check_written(
    enum reading as, uint32_t kind, const struct escape_stream_field *fields, size_t count,
    struct bytes text);
void check_written_sixel(
    const struct escape_stream_sixel *sixel, const struct escape_stream_sixel_item *items);

#endif
