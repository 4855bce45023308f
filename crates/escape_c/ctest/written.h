/* SPDX-License-Identifier: MIT */
/*
 * Writes what was read by a call of escape_stream.h: in every room, with guards beside it, and with
 * each request for memory refused in turn.
 *
 * A file that includes it includes memory.h, and defines struct room, a value, write_from, the call
 * that writes it, and is_framed, whether a text has the beginning and the end of one.
 */
enum { MOST_WRITTEN = 240 };

static uint32_t write_from(const struct room *from, uint8_t *out, size_t capacity, size_t *needed);
static bool is_framed(const uint8_t *text, size_t length);

/* Its text, of this length. */
struct written_text {
    uint8_t bytes[MOST_WRITTEN];
    size_t length;
};

/* Writes it in every room. Returns whether there is a text. */
static bool write_whole(struct written_text *all, const struct room *whole, const char *text) {
    static uint8_t out[MOST_WRITTEN];
    memset(all, JUNK, sizeof *all);
    wants(
        write_from(whole, all->bytes, MOST_WRITTEN, &all->length) == ESCAPE_STREAM_DONE,
        "another status of writing", text, 0);
    if (all->length >= MOST_WRITTEN || !is_framed(all->bytes, all->length) ||
        !is_junk(all->bytes + all->length, MOST_WRITTEN - all->length)) {
        wants(false, "nothing like it is written", text, all->length);
        return false;
    }
    for (size_t capacity = 0; capacity <= all->length + 2; capacity++) {
        size_t needed = 0, fitting = capacity < all->length ? capacity : all->length;
        memset(out, JUNK, sizeof out);
        wants(
            write_from(whole, out, capacity, &needed) == ESCAPE_STREAM_DONE &&
                needed == all->length,
            "another length", text, capacity);
        wants(
            memcmp(out, all->bytes, fitting) == 0 && is_junk(out + fitting, sizeof out - fitting),
            "another text", text, capacity);
    }
    return true;
}

/* Each request for memory refused while it is written. */
static void
check_write_refusals(const struct written_text *all, const struct room *whole, const char *text) {
    static uint8_t out[MOST_WRITTEN];
    for (unsigned long at = 1; at < 1000; at++) {
        size_t needed = JUNK;
        uint32_t status;
        memset(out, JUNK, sizeof out);
        requests = 0;
        refused = at;
        status = write_from(whole, out, sizeof out, &needed);
        refused = 0;
        wants(blocks == 0, "blocks are kept by writing", text, at);
        if (requests < at) {
            wants(status == ESCAPE_STREAM_DONE, "another status of writing", text, at);
            return;
        }
        /* A request that only makes room ahead may be refused without harm. */
        if (status == ESCAPE_STREAM_DONE)
            wants(
                needed == all->length && memcmp(out, all->bytes, needed) == 0, "another text", text,
                at);
        else
            wants(
                status == ESCAPE_STREAM_NO_MEMORY && needed == JUNK && is_junk(out, sizeof out),
                "refused, and written", text, at);
    }
}

/* It is not written, and this status says why. */
static void check_not_written(const struct room *room, uint32_t wanted, const char *what) {
    static uint8_t out[MOST_WRITTEN];
    size_t needed = JUNK;
    memset(out, JUNK, sizeof out);
    wants(
        write_from(room, out, sizeof out, &needed) == wanted, "another status of writing", what, 0);
    wants(
        needed == JUNK && is_junk(out, sizeof out) && blocks == 0, "something was written", what,
        0);
}
