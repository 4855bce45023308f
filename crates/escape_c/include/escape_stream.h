/* SPDX-License-Identifier: MIT */
/*
 * escape_stream.h - streams of terminal escape sequences: their normal form, a filter, HTML, and
 * their requests
 *
 * A stream is bytes as a program writes them to a terminal: UTF-8 text, control characters, and the
 * control functions of ECMA-48 and xterm, such as colours, cursor movements and titles. Any bytes
 * are a stream. Each of the first three calls takes one whole, and keeps nothing. Four objects take
 * a stream in chunks: a filter, by escape_stream_filter_begin and the calls after it; a sanitizer,
 * by escape_stream_sanitizer_begin and the calls after it, which is for logs, line by line, with an
 * account; a page, by escape_stream_html_begin and the calls after it; and a normaliser, by
 * escape_stream_normal_begin and the calls after it. The calls escape_stream_read_.. take the text
 * of one command, query or image, and the calls escape_stream_write_.. write one.
 *
 *     cc program.c $(pkg-config --cflags --libs escape_stream)
 *
 * That links libescape_stream.so.0, or with -static libescape_stream.a. Both run on Linux, on every
 * x86-64 or, built for it, on every aarch64, with the C library of GNU of any version, or musl.
 *
 * The output of each call is proved, for every stream and every capacity; docs/EMBEDDING.md gives
 * the extent of the proof and its assumptions. Nothing checks the caller, who owes this at every
 * call:
 *
 *   - No pointer is NULL, but one to an array of a length, a capacity, a room or a count of 0.
 *   - `bytes` or `text` is `length` initialized bytes that can be read, and nobody writes them
 *     during the call; of the calls escape_stream_write_.. so are the `text_length` bytes of
 *     `text`, the `count` fields or items, and `sixel`.
 *   - `out` is `capacity` initialized bytes that can be read and written; `needed`, `answer`,
 *     `options`, `account`, `osc`, `image`, `query` and `sixel` point to initialized objects of
 *     their types, `fields` to `field_room` of them, `items` to `item_room`, and `params` to
 *     `count`. No two of these and of `bytes` or `text` overlap, but `params` and `text`, and
 *     nobody else reads or writes them during the call.
 *   - No object has more than PTRDIFF_MAX bytes.
 *   - malloc, realloc and free are of one allocator, and align a block to each power of two up to
 *     16 that divides its size.
 *   - The call is made neither in a signal handler, nor in the child of a process with threads that
 *     has only forked.
 *
 * Calls may run in several threads at once, but those of one filter, sanitizer, page or normaliser
 * one after another: it may go from thread to thread, as a stream of zlib may. No call keeps
 * anything of a thread, starts one, takes a lock, reads a clock or touches a file.
 */
#ifndef ESCAPE_STREAM_H
#define ESCAPE_STREAM_H

#include <stdbool.h>
#include <stddef.h>
#include <stdint.h>

#ifdef __cplusplus
extern "C" {
#endif

/* The version of this header, and of the library beside it. */
#define ESCAPE_STREAM_VERSION "0.1.0"
#define ESCAPE_STREAM_VERSION_MAJOR 0
#define ESCAPE_STREAM_VERSION_MINOR 1
#define ESCAPE_STREAM_VERSION_PATCH 0

/*
 * The version of the library that a program runs with, as ESCAPE_STREAM_VERSION has that of the
 * header. Nobody frees the text.
 */
const char *escape_stream_version(void);

/*
 * The statuses. After each but ESCAPE_STREAM_DONE nothing was written: `out`, `fields`, `items`,
 * `*needed`, `*answer`, `*osc`, `*image`, `*query` and `*sixel` are as they were. Later versions
 * may add some, so treat one that you do not know as an error.
 */
#define ESCAPE_STREAM_DONE 0           /* the call was done */
#define ESCAPE_STREAM_NO_MEMORY 1      /* a request for memory was refused */
#define ESCAPE_STREAM_UNKNOWN_POLICY 2 /* no policy has this number */
/* the filter, sanitizer, page or normaliser was not begun, or has ended */
#define ESCAPE_STREAM_NOT_BEGUN 3
/* no command, image or query has this kind and these fields, or this value */
#define ESCAPE_STREAM_NO_COMMAND 4
#define ESCAPE_STREAM_NOT_WRITABLE 5   /* its text would not read back as it */

/* Which of the options of escape_stream_sanitizer_begin is none, beside UNKNOWN_POLICY. */
/* `size` is not that of this version, or `reserved` is not 0 */
#define ESCAPE_STREAM_UNKNOWN_SIZE 6
#define ESCAPE_STREAM_UNKNOWN_GROUP 7      /* `allowed` or `denied` has a bit of no group */
#define ESCAPE_STREAM_UNKNOWN_LINKS 8      /* `links` has a bit of no scheme */
#define ESCAPE_STREAM_UNKNOWN_FRAMING 9    /* no framing has this number */
#define ESCAPE_STREAM_UNKNOWN_CHARACTERS 10 /* `characters` says nothing */
#define ESCAPE_STREAM_UNKNOWN_RETURNS 11   /* `returns` says nothing */
#define ESCAPE_STREAM_UNKNOWN_ENCODING 12  /* no encoding has this number */
#define ESCAPE_STREAM_UNKNOWN_SHOW 13      /* `show` says nothing */
#define ESCAPE_STREAM_TOO_MANY_ROWS 14     /* `rows` is more than 4096 */
#define ESCAPE_STREAM_TOO_MANY_COLUMNS 15  /* `columns` is more than 16384 */

/*
 * The policies of escape_stream_filter and escape_stream_filter_begin. Each admits all that the one
 * before it does.
 *
 * TEXT     characters but DEL; tab, line feed and carriage return
 * COLOR    and graphic renditions (SGR: colours, bold, underline ..) and hyperlinks (OSC 8)
 * SCREEN   and a list of functions that are known to change the screen alone: cursor
 *          movement, erasing, scrolling, modes of the display, and others. Nothing that a
 *          terminal answers, no title, no clipboard, and nothing unknown
 * ALL      all that can be written by itself, so images, titles and queries too. It keeps broken
 *          input from becoming a sequence, and does not protect from sequences that are there
 */
#define ESCAPE_STREAM_POLICY_TEXT 0
#define ESCAPE_STREAM_POLICY_COLOR 1
#define ESCAPE_STREAM_POLICY_SCREEN 2
#define ESCAPE_STREAM_POLICY_ALL 3

/*
 * Writes the normal form of a stream: each of its actions, in order, in its one spelling. So a
 * title that BEL ends is ended by ESC \, a C1 control is UTF-8, and UTF-8 that is broken is U+FFFD.
 * If the stream ends inside a sequence, only its effect so far is written: for a title, nothing.
 *
 * If all that a stream means can be written, its normal form is its own normal form. Else it need
 * not be: a byte 80 to FF in the data of a device control string is written as two bytes, an escape
 * sequence with two intermediates with none, and of a control sequence the first 256 entries. The
 * output of escape_stream_filter is always its own normal form.
 *
 * Normal form is no protection: for a stream of unknown origin there is escape_stream_filter.
 *
 *   bytes, length    the stream, and how many bytes it has
 *   out, capacity    receives its normal form; there is room for `capacity` bytes
 *   needed           receives the length of the normal form, in bytes
 *
 * ESCAPE_STREAM_DONE: `*needed` is the length of the whole normal form, whatever the capacity. The
 * normal form, or as much of its beginning as there is room for, is at the beginning of `out`;
 * every other byte of `out` is as it was. No 0 is added at the end. All of it is there if `*needed
 * <= capacity`; if it is not, call again with room for `*needed` bytes. With a capacity of 0 only
 * the length is written.
 *
 * ESCAPE_STREAM_NO_MEMORY is the only other status. The call takes memory for the normal form and
 * for one string of the stream at a time, and gives it back before it returns. Its time grows
 * linearly with the stream.
 *
 * Example: the normal form of a stream, in a block of its own.
 *
 *     uint8_t *normal_form(const uint8_t *bytes, size_t length, size_t *needed)
 *     {
 *         uint8_t none = 0;
 *         uint8_t *out;
 *         *needed = 0;
 *         if (escape_stream_normal(bytes, length, &none, 0, needed) != ESCAPE_STREAM_DONE)
 *             return NULL;
 *         out = calloc(*needed + 1, 1);
 *         if (out &&
 *             escape_stream_normal(bytes, length, out, *needed, needed) != ESCAPE_STREAM_DONE) {
 *             free(out);
 *             return NULL;
 *         }
 *         return out;
 *     }
 */
uint32_t escape_stream_normal(
    const uint8_t *bytes, size_t length, uint8_t *out, size_t capacity, size_t *needed);

/*
 * Says whether a stream is its own normal form.
 *
 *   bytes, length    the stream, and how many bytes it has
 *   answer           receives the answer
 *
 * ESCAPE_STREAM_DONE: `*answer` is true if the normal form of the stream is the same bytes, and
 * else false.
 *
 * ESCAPE_STREAM_NO_MEMORY is the only other status. The call takes as much memory as
 * escape_stream_normal.
 *
 * Example:
 *
 *     bool answer = false;
 *     if (escape_stream_is_normal(bytes, length, &answer) == ESCAPE_STREAM_DONE && !answer)
 *         puts("not in normal form");
 */
uint32_t escape_stream_is_normal(const uint8_t *bytes, size_t length, bool *answer);

/*
 * Writes the actions of a stream that a policy admits, and nothing else. The text reads back as the
 * actions that were admitted, whatever bytes follow it: no text of the stream becomes a sequence,
 * however broken the stream is. A change that the stream leaves at a terminal, as a rendition,
 * stays: escape_stream_filter_finish gives the text that takes it back.
 *
 *   policy           one of ESCAPE_STREAM_POLICY_..
 *   limit            how many bytes are kept of a string, such as a title or an image; of one with
 *                    more nothing is written. So it bounds the memory that one string can take:
 *                    while it is read at most 41 times as many bytes, as one of semicolons alone
 *                    does (measured on 2026-11-28). 1048576 will do
 *   bytes, length    the stream, and how many bytes it has
 *   out, capacity    receives the text; there is room for `capacity` bytes
 *   needed           receives the length of the text, in bytes
 *
 * ESCAPE_STREAM_DONE: of that text, `*needed` and `out` are as escape_stream_normal says. A text
 * that does not fit is cut anywhere, also inside a sequence: send `out` to a terminal only if
 * `*needed <= capacity`.
 *
 * ESCAPE_STREAM_UNKNOWN_POLICY says that no policy has this number. ESCAPE_STREAM_NO_MEMORY is the
 * only other status. The call takes memory for the text and for one string of the stream at a time,
 * and gives it back before it returns.
 *
 * Example: a line of a log, safe to print.
 *
 *     uint8_t out[4096] = {0};
 *     size_t needed = 0;
 *     uint32_t status = escape_stream_filter(
 *         ESCAPE_STREAM_POLICY_COLOR, 1024, line, length, out, sizeof out, &needed);
 *     if (status == ESCAPE_STREAM_DONE && needed <= sizeof out)
 *         fwrite(out, 1, needed, stdout);
 */
uint32_t escape_stream_filter(
    uint32_t policy, size_t limit, const uint8_t *bytes, size_t length, uint8_t *out,
    size_t capacity, size_t *needed);

/*
 * A filter of a stream that comes in chunks. It lies in the caller's memory; the part of the stream
 * that it keeps is in blocks that it takes and escape_stream_filter_end gives back. Its fields are
 * its own: read and write nothing of it, but set it to zero before the first call, as by = {0} or =
 * ESCAPE_STREAM_FILTER_INIT. A copy of it is the same filter, so go on with one of the two.
 */
struct escape_stream_filter_state {
    bool is_begun;
    void *state;
};

/* One that is not begun, as one of zeros is too. */
#define ESCAPE_STREAM_FILTER_INIT {false, NULL}

/*
 * Begins a stream. The filter keeps at most `limit` bytes of a string. A filter that was begun
 * before is ended first.
 *
 * ESCAPE_STREAM_DONE, ESCAPE_STREAM_UNKNOWN_POLICY and ESCAPE_STREAM_NO_MEMORY are the statuses.
 * After the last two the filter is not begun, and keeps nothing.
 */
uint32_t escape_stream_filter_begin(
    struct escape_stream_filter_state *filter, uint32_t policy, size_t limit);

/*
 * Takes the next chunk of the stream, in whatever chunks it comes. escape_stream_filter_output then
 * gives the text that it adds; that of the chunk before is gone. The texts of all chunks, one after
 * another, are the output of escape_stream_filter for the chunks one after another. A sequence that
 * the end of the stream cuts adds nothing.
 *
 * ESCAPE_STREAM_NO_MEMORY: the filter has ended, as by escape_stream_filter_end. The texts before
 * it are the beginning of what the whole stream would have given. ESCAPE_STREAM_NOT_BEGUN is the
 * only other status but ESCAPE_STREAM_DONE.
 */
uint32_t escape_stream_filter_feed(
    struct escape_stream_filter_state *filter, const uint8_t *bytes, size_t length);

/*
 * Ends the stream, and begins the next, within the same limit and by the same policy.
 * escape_stream_filter_output then gives the text that takes back the changes that the stream left
 * at a terminal: nothing if it left none, and else the ends of renditions and of a link, and by the
 * policies that admit more the main screen, the margins, the cursor and the other modes of the
 * display. An unfinished sequence is dropped.
 *
 * ESCAPE_STREAM_NO_MEMORY: the filter has ended, as by escape_stream_filter_end.
 * ESCAPE_STREAM_NOT_BEGUN is the only other status but ESCAPE_STREAM_DONE.
 */
uint32_t escape_stream_filter_finish(struct escape_stream_filter_state *filter);

/*
 * Writes the text that the last chunk or the end of the stream added, from its byte `from` on, to
 * the beginning of `out`, as much as there is room for, and returns how many bytes these are: 0 at
 * the end of the text, and if the filter is not begun. Every other byte of `out` is as it was. It
 * changes nothing, so a text can be read twice.
 *
 * Example: filters standard input as it comes.
 *
 *     struct escape_stream_filter_state filter = {0};
 *     uint8_t bytes[4096], out[4096] = {0};
 *     size_t length, count;
 *     uint32_t status = escape_stream_filter_begin(&filter, ESCAPE_STREAM_POLICY_COLOR, 1048576);
 *     while (status == ESCAPE_STREAM_DONE && (length = fread(bytes, 1, sizeof bytes, stdin)) > 0) {
 *         status = escape_stream_filter_feed(&filter, bytes, length);
 *         for (size_t from = 0;
 *              (count = escape_stream_filter_output(&filter, from, out, sizeof out)) > 0;
 *              from += count)
 *             fwrite(out, 1, count, stdout);
 *     }
 *     if (escape_stream_filter_finish(&filter) == ESCAPE_STREAM_DONE)
 *         for (size_t from = 0;
 *              (count = escape_stream_filter_output(&filter, from, out, sizeof out)) > 0;
 *              from += count)
 *             fwrite(out, 1, count, stdout);
 *     escape_stream_filter_end(&filter);
 */
size_t escape_stream_filter_output(
    struct escape_stream_filter_state *filter, size_t from, uint8_t *out, size_t capacity);

/* Ends a filter, and gives back what it took. One that is not begun stays so. */
void escape_stream_filter_end(struct escape_stream_filter_state *filter);

/*
 * A filter of a log, or of another stream of unknown origin, that comes in chunks, with the output
 * of the program `escfilter`. If a stream goes line by line, as it does by the policies TEXT and
 * COLOR, a string that nobody ends takes away the rest of its line, and no line after it. It lies
 * in the caller's memory as a filter does: set it to zero before the first call, as by = {0}.
 */
struct escape_stream_sanitizer {
    bool is_begun;
    void *state;
};

/* One that is not begun, as one of zeros is too. */
#define ESCAPE_STREAM_SANITIZER_INIT {false, NULL}

/*
 * The groups of actions, each a bit of `allowed` and of `denied`. The policy TEXT passes
 * CHARACTERS and LAYOUT, COLOR those and SGR, HIDDEN and LINKS, SCREEN those and all up to PALETTE,
 * and ALL all.
 */
#define ESCAPE_STREAM_GROUP_CHARACTERS 0x1 /* characters but DEL */
#define ESCAPE_STREAM_GROUP_LAYOUT 0x2     /* tab, line feed and carriage return */
#define ESCAPE_STREAM_GROUP_SGR 0x4        /* renditions, but those of HIDDEN */
#define ESCAPE_STREAM_GROUP_HIDDEN 0x8     /* renditions that conceal text (SGR 8) */
#define ESCAPE_STREAM_GROUP_LINKS 0x10     /* hyperlinks (OSC 8) */
#define ESCAPE_STREAM_GROUP_CONTROLS 0x20  /* bell, backspace, VT and form feed */
#define ESCAPE_STREAM_GROUP_CURSOR 0x40    /* cursor movement, tab stops */
#define ESCAPE_STREAM_GROUP_ERASE 0x80     /* erasing, inserting, deleting, filling */
#define ESCAPE_STREAM_GROUP_SCROLL 0x100   /* scrolling, index and next line, margins */
#define ESCAPE_STREAM_GROUP_MODES 0x200    /* modes of the display */
#define ESCAPE_STREAM_GROUP_CHARSETS 0x400 /* character sets, shifts, wide lines */
#define ESCAPE_STREAM_GROUP_PALETTE 0x800  /* colours of the palette */
#define ESCAPE_STREAM_GROUP_TITLES 0x1000  /* titles of the window and of the icon */
#define ESCAPE_STREAM_GROUP_CLIPBOARD 0x2000 /* the clipboard, set and cleared */
#define ESCAPE_STREAM_GROUP_IMAGES 0x4000  /* images of kitty and sixel */
#define ESCAPE_STREAM_GROUP_OTHER 0x8000   /* anything else, queries too */

/* The schemes of links that pass, each a bit of `links`; those of any scheme if no bit is set. */
#define ESCAPE_STREAM_LINKS_HTTP 1
#define ESCAPE_STREAM_LINKS_HTTPS 2
#define ESCAPE_STREAM_LINKS_MAILTO 4

/*
 * Whether each line is a stream of its own, or the whole; 0: LINES if the policy is TEXT or COLOR
 * and `rows` is 0, and else WHOLE. By LINES a rendition that goes on over a line feed is written
 * again at the start of the next line; by LINES_RESET each line begins plain.
 */
#define ESCAPE_STREAM_FRAMING_LINES 1
#define ESCAPE_STREAM_FRAMING_WHOLE 2
#define ESCAPE_STREAM_FRAMING_LINES_RESET 3

/*
 * The output for characters that hide or reorder text: themselves, themselves if they belong to the
 * character before them or are a byte order mark where none is, and else their number as <U+202E>,
 * their number, or nothing; 0: JOIN by TEXT and COLOR, and else KEEP.
 */
#define ESCAPE_STREAM_CHARACTERS_KEEP 1
#define ESCAPE_STREAM_CHARACTERS_JOIN 2
#define ESCAPE_STREAM_CHARACTERS_SHOW 3
#define ESCAPE_STREAM_CHARACTERS_DROP 4

/*
 * The output for a carriage return within a line: itself, ^M, or nothing; 0: SHOW by TEXT and
 * COLOR without `rows`, and else KEEP. A stream that is one keeps it.
 */
#define ESCAPE_STREAM_RETURNS_KEEP 1
#define ESCAPE_STREAM_RETURNS_SHOW 2
#define ESCAPE_STREAM_RETURNS_DROP 3

/*
 * How bytes are read. A byte 80 to 9F that is no part of a character is replaced by U+FFFD, and by
 * an encoding .._C1 it is a control, as it is wherever `show` is not 0.
 *
 * By UTF_16 a byte order mark says the order of bytes, and is left out; in a stream without one the
 * lower byte of a unit comes first. UTF_16LE and UTF_16BE name the order: a mark is a character. A
 * unit that is no part of a pair is U+FFFD, and so is a unit or a pair that the end of the stream
 * cuts short; a chunk may end within either. The UTF-8 of a chunk is kept, up to 3 bytes for 2.
 */
#define ESCAPE_STREAM_ENCODING_UTF_8 0
#define ESCAPE_STREAM_ENCODING_UTF_8_C1 1
#define ESCAPE_STREAM_ENCODING_LATIN_1 2
#define ESCAPE_STREAM_ENCODING_LATIN_1_C1 3
#define ESCAPE_STREAM_ENCODING_WINDOWS_1250 4 /* and so on up to windows-1258, 12 */
#define ESCAPE_STREAM_ENCODING_WINDOWS_1251 5
#define ESCAPE_STREAM_ENCODING_WINDOWS_1252 6
#define ESCAPE_STREAM_ENCODING_WINDOWS_1253 7
#define ESCAPE_STREAM_ENCODING_WINDOWS_1254 8
#define ESCAPE_STREAM_ENCODING_WINDOWS_1255 9
#define ESCAPE_STREAM_ENCODING_WINDOWS_1256 10
#define ESCAPE_STREAM_ENCODING_WINDOWS_1257 11
#define ESCAPE_STREAM_ENCODING_WINDOWS_1258 12
#define ESCAPE_STREAM_ENCODING_UTF_16 13
#define ESCAPE_STREAM_ENCODING_UTF_16LE 14
#define ESCAPE_STREAM_ENCODING_UTF_16BE 15

/*
 * How sequences that do not pass are shown in their place, as ^[]0;title^G; 0: they are left out.
 * ESCAPED shows each ^ and < of other text too, as <5E> and <3C>, so that all can be read back, and
 * REVERSED shows in reverse video, if that passes.
 */
#define ESCAPE_STREAM_SHOW_PLAIN 1
#define ESCAPE_STREAM_SHOW_ESCAPED 2
#define ESCAPE_STREAM_SHOW_REVERSED 3

/*
 * How a stream is sanitized, as the options of `escfilter` say it. Begin with the value
 * ESCAPE_STREAM_SANITIZER_OPTIONS_INIT, and set the fields that are to differ. A later version may
 * add fields at the end: it takes `size` from an older header too, and then has the usual values of
 * them.
 *
 * If `rows` is not 0, the text goes to a terminal's screen of that size, and what this leaves is
 * written: of a progress bar its last state. A row is written when it is scrolled off the top of
 * the screen, and those that are left at the end of the stream. What changes the screen takes
 * effect there, even if its group does not pass. Two screens are held, of 32 bytes a cell. The
 * account is of the text that goes to the screen.
 */
struct escape_stream_sanitizer_options {
    uint32_t size;       /* sizeof(struct escape_stream_sanitizer_options) */
    uint32_t policy;     /* the policy: ESCAPE_STREAM_POLICY_.. */
    uint64_t limit;      /* how many bytes are kept of an unfinished sequence, string or line */
    uint32_t allowed;    /* the groups that pass besides: ESCAPE_STREAM_GROUP_.. */
    uint32_t denied;     /* the groups of all these that do not pass */
    uint32_t links;      /* the schemes of the links that pass: ESCAPE_STREAM_LINKS_.. */
    uint32_t framing;    /* ESCAPE_STREAM_FRAMING_.. */
    uint32_t characters; /* ESCAPE_STREAM_CHARACTERS_.. */
    uint32_t returns;    /* ESCAPE_STREAM_RETURNS_.. */
    uint32_t encoding;   /* ESCAPE_STREAM_ENCODING_.. */
    uint32_t show;       /* ESCAPE_STREAM_SHOW_.. */
    uint32_t rows;       /* how many rows may be written again, up to 4096; 0: none */
    uint32_t columns;    /* with `rows`, how many columns these have, up to 16384: a longer line
                            goes on in the next row; 0: 512 */
    uint32_t account;    /* whether an account is kept, which costs time and memory: 0 is no */
    uint32_t reserved;   /* 0 */
};

/* The policy COLOR, a limit of 1 MiB, an account, and all else as usual in `escfilter`. */
#define ESCAPE_STREAM_SANITIZER_OPTIONS_INIT                                                       \
    {(uint32_t)sizeof(struct escape_stream_sanitizer_options),                                     \
     ESCAPE_STREAM_POLICY_COLOR, 1048576, 0, 0, 0, 0, 0, 0, 0, 0, 0, 0, 1, 0}

/*
 * Begins a stream, which is sanitized as the options say; they are not looked at after the call. A
 * sanitizer that was begun before is ended first.
 *
 * ESCAPE_STREAM_DONE and ESCAPE_STREAM_NO_MEMORY are statuses, and if an option is none,
 * ESCAPE_STREAM_UNKNOWN_POLICY and ESCAPE_STREAM_UNKNOWN_SIZE to ESCAPE_STREAM_TOO_MANY_COLUMNS,
 * which say which. After any but the first the sanitizer is not begun, and keeps nothing.
 */
uint32_t escape_stream_sanitizer_begin(struct escape_stream_sanitizer *sanitizer,
                                       const struct escape_stream_sanitizer_options *options);

/*
 * Takes the next chunk of the stream, in whatever chunks it comes. escape_stream_sanitizer_output
 * then gives the text that it adds; that of the chunk before is gone. The texts of all chunks and
 * of the end, one after another, are the output of `escfilter`.
 *
 * By the policy TEXT without `rows` the text holds the bytes 09, 0A, 0D, 20 to 7E and well-formed
 * UTF-8 from U+00A0 on, and no others; by COLOR, and with `rows`, whole renditions and links too.
 *
 * ESCAPE_STREAM_NO_MEMORY: the sanitizer has ended, as by escape_stream_sanitizer_end. The texts
 * before it are the beginning of what the whole stream would have given. ESCAPE_STREAM_NOT_BEGUN,
 * also after the end of the stream, which gives the sanitizer back, is the only other status but
 * ESCAPE_STREAM_DONE.
 */
uint32_t escape_stream_sanitizer_feed(struct escape_stream_sanitizer *sanitizer,
                                      const uint8_t *bytes, size_t length);

/*
 * Ends the stream. escape_stream_sanitizer_output then gives the text that this adds: an unfinished
 * sequence, as far as it is shown, the text that takes back the changes that the stream left at a
 * terminal, and the rows that are left. The account is then that of the whole stream.
 *
 * The statuses are those of escape_stream_sanitizer_feed. For another stream, begin again.
 */
uint32_t escape_stream_sanitizer_finish(struct escape_stream_sanitizer *sanitizer);

/*
 * Writes the text that the last chunk or the end of the stream added, from its byte `from` on, to
 * the beginning of `out`, as escape_stream_filter_output does.
 */
size_t escape_stream_sanitizer_output(struct escape_stream_sanitizer *sanitizer, size_t from,
                                      uint8_t *out, size_t capacity);

/* The fates of the bytes of a stream: how many had each, in UTF-8 if an encoding has others. */
struct escape_stream_account {
    uint64_t passed;      /* are in the text as they came */
    uint64_t respelled;   /* are in the text in another spelling */
    uint64_t shown;       /* are in the text as visible characters */
    uint64_t replaced;    /* have U+FFFD in the text for them */
    uint64_t left_out;    /* mean something that does not pass */
    uint64_t swallowed;   /* mean nothing, as of a string that nobody ended */
    uint64_t overwritten; /* have other text in their place */
    uint64_t length;      /* there are in all: the sum of these */
};

/*
 * Writes the fates of the bytes of the stream: of the lines, or of the parts of a stream that is
 * one, that have ended; and of all, once the stream has ended. The sums are then as many as the
 * stream has bytes, if it has fewer than 2^62. Zeros if the options ask for no account.
 *
 * ESCAPE_STREAM_NOT_BEGUN is the only other status but ESCAPE_STREAM_DONE: nothing was written.
 *
 * Example: a log from standard input, safe to print, and how much of it was not.
 *
 *     struct escape_stream_sanitizer log = {0};
 *     struct escape_stream_sanitizer_options options = ESCAPE_STREAM_SANITIZER_OPTIONS_INIT;
 *     struct escape_stream_account account = {0};
 *     uint8_t bytes[4096], out[4096] = {0};
 *     size_t length, count;
 *     uint32_t status = escape_stream_sanitizer_begin(&log, &options);
 *     while (status == ESCAPE_STREAM_DONE) {
 *         length = fread(bytes, 1, sizeof bytes, stdin);
 *         status = length > 0 ? escape_stream_sanitizer_feed(&log, bytes, length)
 *                             : escape_stream_sanitizer_finish(&log);
 *         for (size_t at = 0;
 *              (count = escape_stream_sanitizer_output(&log, at, out, sizeof out)) > 0;
 *              at += count)
 *             fwrite(out, 1, count, stdout);
 *         if (length == 0)
 *             break;
 *     }
 *     if (escape_stream_sanitizer_account(&log, &account) == ESCAPE_STREAM_DONE)
 *         fprintf(stderr, "%" PRIu64 " bytes were left out\n", account.left_out);
 *     escape_stream_sanitizer_end(&log);
 */
uint32_t escape_stream_sanitizer_account(struct escape_stream_sanitizer *sanitizer,
                                         struct escape_stream_account *account);

/* Ends a sanitizer, and gives back what it took. One that is not begun stays so. */
void escape_stream_sanitizer_end(struct escape_stream_sanitizer *sanitizer);

/*
 * A stream that comes in chunks, as HTML: its characters, tabs and lines, with colours and
 * renditions as spans and links to http, https and mailto. A browser reads from the text, inside
 * the body of a page in UTF-8, these spans and links and nothing else, whatever the stream is. It
 * lies in the caller's memory as a filter does: set it to zero before the first call.
 */
struct escape_stream_html {
    bool is_begun;
    void *state;
};

/* One that is not begun, as one of zeros is too. */
#define ESCAPE_STREAM_HTML_INIT {false, NULL}

/*
 * Begins the page of a stream. A page that was begun before is given back first.
 *
 *   per_line         closes the tags that are open before each line feed, and opens them again
 *                    after it
 *   is_inline        writes looks as styles alone, so that the text needs no style sheet; else as
 *                    the classes of `eschtml --style`
 *   limit            how many bytes are kept of a string, such as a link; one with more shows
 *                    nothing. 1048576 will do
 *
 * ESCAPE_STREAM_DONE and ESCAPE_STREAM_NO_MEMORY are the statuses. After the last the page is not
 * begun, and keeps nothing.
 */
uint32_t escape_stream_html_begin(
    struct escape_stream_html *page, bool per_line, bool is_inline, size_t limit);

/*
 * Takes the next chunk of the stream. escape_stream_html_output then gives the text that it adds to
 * the page; that of the chunk before is gone.
 *
 * ESCAPE_STREAM_NO_MEMORY: the page was given back. The texts before it are the beginning of the
 * page. ESCAPE_STREAM_NOT_BEGUN, also after the end of the stream, which gives the page back, is
 * the only other status but ESCAPE_STREAM_DONE.
 */
uint32_t escape_stream_html_feed(
    struct escape_stream_html *page, const uint8_t *bytes, size_t length);

/*
 * Ends the stream. escape_stream_html_output then gives the text that closes the open tags: with it
 * the texts of all chunks, one after another, are a page, in which each tag is closed. It takes no
 * memory.
 *
 * ESCAPE_STREAM_NOT_BEGUN is the only other status but ESCAPE_STREAM_DONE.
 */
uint32_t escape_stream_html_finish(struct escape_stream_html *page);

/*
 * Writes the text that the last chunk or the end of the stream added, from its byte `from` on, to
 * the beginning of `out`, as escape_stream_filter_output does.
 */
size_t escape_stream_html_output(
    struct escape_stream_html *page, size_t from, uint8_t *out, size_t capacity);

/* Gives back what a page took. One that is not begun stays so. */
void escape_stream_html_end(struct escape_stream_html *page);

/*
 * The normal form of a stream that comes in chunks. It lies in the caller's memory as a filter
 * does: set it to zero before the first call, as by = {0}.
 */
struct escape_stream_normaliser {
    bool is_begun;
    void *state;
};

/* One that is not begun, as one of zeros is too. */
#define ESCAPE_STREAM_NORMALISER_INIT {false, NULL}

/*
 * Begins a stream. The normaliser keeps at most `limit` bytes of a string; nothing is written of a
 * longer one. 1048576 will do. A normaliser that was begun before is ended first.
 *
 * ESCAPE_STREAM_DONE and ESCAPE_STREAM_NO_MEMORY are the statuses. After the last the normaliser is
 * not begun, and keeps nothing.
 */
uint32_t escape_stream_normal_begin(struct escape_stream_normaliser *normaliser, size_t limit);

/*
 * Takes the next chunk of the stream, in whatever chunks it comes. escape_stream_normal_output then
 * gives the text that it adds to the normal form; that of the chunk before is gone. The texts of
 * all chunks, one after another, are the output of escape_stream_normal for the chunks one after
 * another, if no string is longer than the limit. If the stream ends inside a sequence, only its
 * effect so far is written.
 *
 * ESCAPE_STREAM_NO_MEMORY: the normaliser has ended, as by escape_stream_normal_end. The texts
 * before it are the beginning of the normal form of the whole stream. ESCAPE_STREAM_NOT_BEGUN is
 * the only other status but ESCAPE_STREAM_DONE.
 */
uint32_t escape_stream_normal_feed(
    struct escape_stream_normaliser *normaliser, const uint8_t *bytes, size_t length);

/*
 * Ends the stream, and begins the next, within the same limit. The end adds nothing to the normal
 * form, so the text that escape_stream_normal_output gives is then empty. An unfinished sequence is
 * dropped. It takes no memory.
 *
 * ESCAPE_STREAM_NOT_BEGUN is the only other status but ESCAPE_STREAM_DONE.
 */
uint32_t escape_stream_normal_finish(struct escape_stream_normaliser *normaliser);

/*
 * Writes the text that the last chunk added, from its byte `from` on, to the beginning of `out`, as
 * escape_stream_filter_output does.
 *
 * Example: the normal form of standard input, as it comes.
 *
 *     struct escape_stream_normaliser normaliser = {0};
 *     uint8_t bytes[4096], out[4096] = {0};
 *     size_t length, count;
 *     uint32_t status = escape_stream_normal_begin(&normaliser, 1048576);
 *     while (status == ESCAPE_STREAM_DONE && (length = fread(bytes, 1, sizeof bytes, stdin)) > 0) {
 *         status = escape_stream_normal_feed(&normaliser, bytes, length);
 *         for (size_t from = 0;
 *              (count = escape_stream_normal_output(&normaliser, from, out, sizeof out)) > 0;
 *              from += count)
 *             fwrite(out, 1, count, stdout);
 *     }
 *     escape_stream_normal_end(&normaliser);
 */
size_t escape_stream_normal_output(
    struct escape_stream_normaliser *normaliser, size_t from, uint8_t *out, size_t capacity);

/* Ends a normaliser, and gives back what it took. One that is not begun stays so. */
void escape_stream_normal_end(struct escape_stream_normaliser *normaliser);

/*
 * A control function: a row of docs/FUNCTIONS.md. If there is none, all of it is 0.
 */
struct escape_stream_function_info {
    char name[16];       /* as the standards abbreviate it, as "CUP"; a 0 ends it */
    char phrase[80];     /* its effect, in words, as "cursor position"; a 0 ends it */
    bool changes_screen; /* it changes the screen alone, with whatever parameters */
    bool is_answered;    /* a terminal answers it, with some of its parameters or with all */
};

/*
 * Says whether a control sequence has a name, and writes its function to `out`.
 *
 *   prefix         its private prefix, one of < = > ?, or 0 if it has none
 *   intermediate   its intermediate, a space up to /, or 0 if it has none. No function has two
 *   final          its final byte
 *   count          how many parameters and separators it has: of an event of escape_stream_next its
 *                  `count`. It matters for the final bytes T, s and u alone, of which each has two
 *                  functions: with 0 for `count` those without parameters
 *   out            receives the row
 *
 * The bytes are not checked: of others a name may be found too.
 *
 * Example: the cursor's lines, of a sequence without prefix and intermediate.
 *
 *     struct escape_stream_function_info function;
 *     if (escape_stream_function(0, 0, final, count, &function) &&
 *         strcmp(function.name, "CUU") == 0)
 *         line -= number;
 */
bool escape_stream_function(uint8_t prefix, uint8_t intermediate, uint8_t final, size_t count,
                            struct escape_stream_function_info *out);

/*
 * The same of an escape sequence: its intermediate, or 0, and its final byte. A C1 control has the
 * function of the escape sequence with a final byte that is 0x40 less than its code. If the
 * function designates a character set, the intermediate decides it, and the final byte says which
 * set.
 */
bool escape_stream_escape_function(
    uint8_t intermediate, uint8_t final, struct escape_stream_function_info *out);

/*
 * The same of a C0 control, 0x00 to 0x1f, or DEL, 0x7f: its code. 0x0a is "LF", "line feed".
 */
bool escape_stream_control_function(uint8_t code, struct escape_stream_function_info *out);

/*
 * A control string that has a name: a row of the tables of strings in docs/FUNCTIONS.md. If there
 * is none, all of it is 0.
 */
struct escape_stream_string_info {
    char name[40];   /* as "OSC 52", "OSC 133;A" or "DECRQSS", no other row's; a 0 ends it */
    char phrase[80]; /* its effect, in words, as "clipboard"; a 0 ends it */
    /* what it is told apart by, to switch on: the number of an operating system command, or its
     * letter; the first byte of an application program command; of a device control string its
     * prefix, its intermediate and its final byte, as digits to the base 256 after a 1: 0x12471
     * of ESC P $ q */
    size_t key;
    size_t row;      /* the place of its row, counted from 0; another version may have another */
};

/*
 * Says whether an operating system command has a name, and writes its row to `out`.
 *
 *   text, length   the text between ESC ] and its end, as an event ESCAPE_STREAM_OSC has it
 *   out            receives the row
 *
 * The number that the text begins with finds the row, and where a number has several the part after
 * it. Zeros before the number do not matter.
 *
 * Example: what a stream does to the clipboard.
 *
 *     struct escape_stream_string_info string;
 *     if (escape_stream_osc_function(text, length, &string) && string.key == 52)
 *         refuse(string.phrase);
 */
bool escape_stream_osc_function(
    const uint8_t *text, size_t length, struct escape_stream_string_info *out);

/*
 * The same of a device control string.
 *
 *   prefix, intermediate, final   as for escape_stream_function
 *   params, count                 its parameters, and how many there are
 *   data, length                  its data, or their beginning: a few strings are told apart by
 *                                 their first 9 bytes, and have no name without these
 */
bool escape_stream_dcs_function(
    uint8_t prefix, uint8_t intermediate, uint8_t final, const int64_t *params, size_t count,
    const uint8_t *data, size_t length, struct escape_stream_string_info *out);

/*
 * The same of an application program command: the text between ESC _ and its end.
 */
bool escape_stream_apc_function(
    const uint8_t *text, size_t length, struct escape_stream_string_info *out);

/*
 * The same of the row in a place, counted from 0: for each row, go on up to the first place that
 * has none.
 */
bool escape_stream_string_row(size_t row, struct escape_stream_string_info *out);

/*
 * The same of a name: `length` bytes, without the 0 after them.
 */
bool escape_stream_string_named(
    const uint8_t *name, size_t length, struct escape_stream_string_info *out);

/*
 * The kinds of operating system commands, and which fields each has, in order. One between [ and ]
 * may be absent; `..` says that the fields before it come once for each item. A colour is RED,
 * GREEN and BLUE, or QUERY in place of the three. The 3 flags of a file are PRESERVE_ASPECT_RATIO,
 * INLINE and DO_NOT_MOVE_CURSOR; its width is one of WIDTH_.., and its height one of HEIGHT_..,
 * each absent if it is automatic. The commands of iTerm2 and the prompts of shells have a kind
 * each. Later versions may add some.
 */
/* PART ..: any other command, as its parts between ; */
#define ESCAPE_STREAM_OSC_UNSPECIFIED 0
#define ESCAPE_STREAM_OSC_SET_ICON_NAME_AND_WINDOW_TITLE 1           /* TEXT */
#define ESCAPE_STREAM_OSC_SET_WINDOW_TITLE 2                         /* TEXT */
#define ESCAPE_STREAM_OSC_SET_WINDOW_TITLE_SUN 3                     /* TEXT */
#define ESCAPE_STREAM_OSC_SET_ICON_NAME 4                            /* TEXT */
#define ESCAPE_STREAM_OSC_SET_ICON_NAME_SUN 5                        /* TEXT */
/* URI, IMPLICIT, (KEY, VALUE) ..; none: the link ends */
#define ESCAPE_STREAM_OSC_SET_HYPERLINK 6
#define ESCAPE_STREAM_OSC_CLEAR_SELECTION 7                          /* SELECTION */
#define ESCAPE_STREAM_OSC_QUERY_SELECTION 8                          /* SELECTION */
#define ESCAPE_STREAM_OSC_SET_SELECTION 9                            /* SELECTION, TEXT */
#define ESCAPE_STREAM_OSC_SYSTEM_NOTIFICATION 10                     /* TEXT */
/* (PALETTE_INDEX, colour) .. */
#define ESCAPE_STREAM_OSC_CHANGE_COLOR_NUMBER 11
/* DYNAMIC_COLOR, colour ..: for it and those after it */
#define ESCAPE_STREAM_OSC_CHANGE_DYNAMIC_COLORS 12
#define ESCAPE_STREAM_OSC_RESET_DYNAMIC_COLOR 13                     /* DYNAMIC_COLOR */
#define ESCAPE_STREAM_OSC_CURRENT_WORKING_DIRECTORY 14               /* DIRECTORY */
/* PALETTE_INDEX ..; none: all of them */
#define ESCAPE_STREAM_OSC_RESET_COLORS 15
#define ESCAPE_STREAM_OSC_RXVT_EXTENSION 16                          /* PART .. */
/* PROGRESS_STATE, and in states 1 and 2 PERCENT */
#define ESCAPE_STREAM_OSC_CONEMU_PROGRESS 17
#define ESCAPE_STREAM_OSC_PROMPT_FRESH_LINE 18                       /* none */
#define ESCAPE_STREAM_OSC_PROMPT_FRESH_LINE_AND_START_PROMPT 19      /* [APPLICATION], [CLICK] */
#define ESCAPE_STREAM_OSC_PROMPT_END_OF_COMMAND_WITH_FRESH_LINE 20   /* [APPLICATION], [CLICK] */
#define ESCAPE_STREAM_OSC_PROMPT_START_PROMPT 21                     /* PROMPT_KIND */
#define ESCAPE_STREAM_OSC_PROMPT_START_OF_INPUT_UNTIL_NEXT_MARKER 22 /* none */
#define ESCAPE_STREAM_OSC_PROMPT_START_OF_INPUT_UNTIL_END_OF_LINE 23 /* none */
#define ESCAPE_STREAM_OSC_PROMPT_START_OF_OUTPUT 24                  /* [APPLICATION] */
#define ESCAPE_STREAM_OSC_PROMPT_COMMAND_STATUS 25                   /* STATUS, [APPLICATION] */
#define ESCAPE_STREAM_OSC_ITERM_SET_MARK 26                          /* none */
#define ESCAPE_STREAM_OSC_ITERM_STEAL_FOCUS 27                       /* none */
#define ESCAPE_STREAM_OSC_ITERM_CLEAR_SCROLLBACK 28                  /* none */
#define ESCAPE_STREAM_OSC_ITERM_CURRENT_DIR 29                       /* DIRECTORY */
#define ESCAPE_STREAM_OSC_ITERM_SET_PROFILE 30                       /* NAME */
#define ESCAPE_STREAM_OSC_ITERM_COPY_TO_CLIPBOARD 31                 /* NAME: the pasteboard */
#define ESCAPE_STREAM_OSC_ITERM_END_COPY 32                          /* none */
#define ESCAPE_STREAM_OSC_ITERM_HIGHLIGHT_CURSOR_LINE 33             /* HIGHLIGHTED */
#define ESCAPE_STREAM_OSC_ITERM_REQUEST_CELL_SIZE 34                 /* none */
/* CELL_HEIGHT, CELL_WIDTH, [SCALE] */
#define ESCAPE_STREAM_OSC_ITERM_REPORT_CELL_SIZE 35
#define ESCAPE_STREAM_OSC_ITERM_COPY 36                              /* TEXT */
/* NAME. No text is read as this one */
#define ESCAPE_STREAM_OSC_ITERM_REPORT_VARIABLE 37
#define ESCAPE_STREAM_OSC_ITERM_SET_USER_VAR 38                      /* NAME, VALUE */
#define ESCAPE_STREAM_OSC_ITERM_SET_BADGE_FORMAT 39                  /* TEXT */
/* [NAME], [SIZE], [width], [height], 3 flags, CONTENT */
#define ESCAPE_STREAM_OSC_ITERM_FILE 40
#define ESCAPE_STREAM_OSC_ITERM_SET_UNICODE_VERSION 41               /* VERSION */
#define ESCAPE_STREAM_OSC_ITERM_PUSH_UNICODE_VERSION 42              /* [LABEL] */
#define ESCAPE_STREAM_OSC_ITERM_POP_UNICODE_VERSION 43               /* [LABEL] */

/*
 * The names of fields, and the content of each. A flag is a number, 0 or 1. Texts are UTF-8 unless
 * something else is said. No 0 ends them, and they may hold controls, so print none as it is.
 */
/* text: a title, a notification, or for a clipboard or the badge */
#define ESCAPE_STREAM_FIELD_TEXT 0
/* text: a part of a command; of UNSPECIFIED it need not be UTF-8 */
#define ESCAPE_STREAM_FIELD_PART 1
/* text: the path or the address of a directory */
#define ESCAPE_STREAM_FIELD_DIRECTORY 2
#define ESCAPE_STREAM_FIELD_URI 3                    /* text: the address of a link */
/* flag: the terminal found the link in the text. Here 0 */
#define ESCAPE_STREAM_FIELD_IMPLICIT 4
#define ESCAPE_STREAM_FIELD_KEY 5                    /* text: the key of a parameter of a link */
#define ESCAPE_STREAM_FIELD_VALUE 6                  /* text: its value; or that of a variable */
/* number, a sum: 2 clipboard, 4 primary, 8 select, 16 to 8192 buffers */
#define ESCAPE_STREAM_FIELD_SELECTION 7
#define ESCAPE_STREAM_FIELD_PALETTE_INDEX 8          /* number: a place of the palette, 0 to 255 */
/* number: 10 to 19, that of the command which changes it */
#define ESCAPE_STREAM_FIELD_DYNAMIC_COLOR 9
#define ESCAPE_STREAM_FIELD_RED 10                   /* number: 0 to 65535 */
#define ESCAPE_STREAM_FIELD_GREEN 11                 /* number: 0 to 65535 */
#define ESCAPE_STREAM_FIELD_BLUE 12                  /* number: 0 to 65535 */
#define ESCAPE_STREAM_FIELD_QUERY 13                 /* number: 1. Asks for the colour */
/* number: 0 none, 1 per cent, 2 error, 3 no end known, 4 paused */
#define ESCAPE_STREAM_FIELD_PROGRESS_STATE 14
#define ESCAPE_STREAM_FIELD_PERCENT 15               /* number: 0 to 100 */
/* text: the name of the application that writes the prompt */
#define ESCAPE_STREAM_FIELD_APPLICATION 16
/* number: 0 a line, 1 lines, 2 also up and down, 3 so, smartly */
#define ESCAPE_STREAM_FIELD_CLICK 17
/* number: 0 initial, 1 right side, 2 continuation, 3 secondary */
#define ESCAPE_STREAM_FIELD_PROMPT_KIND 18
/* number: the status of the command that ended */
#define ESCAPE_STREAM_FIELD_STATUS 19
/* text: of a profile, a pasteboard, a variable or a file */
#define ESCAPE_STREAM_FIELD_NAME 20
/* flag: the line of the cursor is highlighted */
#define ESCAPE_STREAM_FIELD_HIGHLIGHTED 21
#define ESCAPE_STREAM_FIELD_CELL_HEIGHT 22           /* number: in tenths of a pixel */
#define ESCAPE_STREAM_FIELD_CELL_WIDTH 23            /* number: in tenths of a pixel */
/* number: pixels of the display for a pixel, in tenths */
#define ESCAPE_STREAM_FIELD_SCALE 24
/* size: how many bytes the file has, as the command says */
#define ESCAPE_STREAM_FIELD_SIZE 25
/* number: in cells; less than 0 is 0, also in the next five */
#define ESCAPE_STREAM_FIELD_WIDTH_CELLS 26
#define ESCAPE_STREAM_FIELD_WIDTH_PIXELS 27          /* number: in pixels */
#define ESCAPE_STREAM_FIELD_WIDTH_PERCENT 28         /* number: of the window */
#define ESCAPE_STREAM_FIELD_HEIGHT_CELLS 29          /* number: in cells */
#define ESCAPE_STREAM_FIELD_HEIGHT_PIXELS 30         /* number: in pixels */
#define ESCAPE_STREAM_FIELD_HEIGHT_PERCENT 31        /* number: of the window */
/* flag: the width and the height keep their ratio */
#define ESCAPE_STREAM_FIELD_PRESERVE_ASPECT_RATIO 32
#define ESCAPE_STREAM_FIELD_INLINE 33                /* flag: the file is shown, and else stored */
#define ESCAPE_STREAM_FIELD_DO_NOT_MOVE_CURSOR 34    /* flag: the cursor stays where it is */
/* text: the content of a file, any bytes; and see MEDIUM */
#define ESCAPE_STREAM_FIELD_CONTENT 35
#define ESCAPE_STREAM_FIELD_VERSION 36               /* number: a version of Unicode */
/* text: of a version that is kept or brought back */
#define ESCAPE_STREAM_FIELD_LABEL 37
/* number: the kind of CONTENT, ESCAPE_STREAM_MEDIUM_.. */
#define ESCAPE_STREAM_FIELD_MEDIUM 38
/* number: how many bytes of the file or the memory are the image */
#define ESCAPE_STREAM_FIELD_DATA_SIZE 39
#define ESCAPE_STREAM_FIELD_DATA_OFFSET 40           /* number: how many come before them */
/* number: of pixels. 24 RGB, 32 RGBA, 100 a PNG file */
#define ESCAPE_STREAM_FIELD_FORMAT 41
#define ESCAPE_STREAM_FIELD_PIXEL_WIDTH 42           /* number: of an image, in pixels */
#define ESCAPE_STREAM_FIELD_PIXEL_HEIGHT 43          /* number */
#define ESCAPE_STREAM_FIELD_IMAGE_ID 44              /* number: the id of an image */
/* number: the number of an image, in place of an id */
#define ESCAPE_STREAM_FIELD_IMAGE_NUMBER 45
#define ESCAPE_STREAM_FIELD_COMPRESSION 46           /* number: 0 none, 1 deflate */
/* flag: more of the image follows in further commands */
#define ESCAPE_STREAM_FIELD_MORE_DATA_FOLLOWS 47
/* number: a left edge in pixels; of a deletion a column, from 1 */
#define ESCAPE_STREAM_FIELD_X 48
/* number: a top edge in pixels; of a deletion a row, from 1 */
#define ESCAPE_STREAM_FIELD_Y 49
/* number: of the part that is shown or put over others, in pixels */
#define ESCAPE_STREAM_FIELD_WIDTH 50
#define ESCAPE_STREAM_FIELD_HEIGHT 51                /* number */
/* number: how far from the left edge of the first cell, in pixels */
#define ESCAPE_STREAM_FIELD_X_OFFSET 52
#define ESCAPE_STREAM_FIELD_Y_OFFSET 53              /* number: how far from its top edge */
#define ESCAPE_STREAM_FIELD_COLUMNS 54               /* number: how many an image is scaled to */
#define ESCAPE_STREAM_FIELD_ROWS 55                  /* number */
#define ESCAPE_STREAM_FIELD_PLACEMENT_ID 56          /* number: the id of a placement */
/* number: the order above and below others, which may be negative */
#define ESCAPE_STREAM_FIELD_Z_INDEX 57
/* flag: the image is shown in the place of placeholder characters */
#define ESCAPE_STREAM_FIELD_UNICODE_PLACEHOLDER 58
/* number: the frame whose pixels a new one begins with, from 1 */
#define ESCAPE_STREAM_FIELD_BASE_FRAME 59
#define ESCAPE_STREAM_FIELD_FRAME_NUMBER 60          /* number: the frame that is edited, from 1 */
/* number: how long a frame is shown, in milliseconds */
#define ESCAPE_STREAM_FIELD_DURATION 61
/* number: 0 pixels are blended with others, 1 they replace them */
#define ESCAPE_STREAM_FIELD_COMPOSITION_MODE 62
/* number: red, green, blue and alpha of 8 bits, red the highest */
#define ESCAPE_STREAM_FIELD_BACKGROUND_PIXEL 63
#define ESCAPE_STREAM_FIELD_TARGET_FRAME 64          /* number: the frame that is changed, from 1 */
/* number: the frame whose pixels are taken, from 1 */
#define ESCAPE_STREAM_FIELD_SOURCE_FRAME 65
/* number: the left edge of the part that is taken, in pixels */
#define ESCAPE_STREAM_FIELD_SOURCE_X 66
#define ESCAPE_STREAM_FIELD_SOURCE_Y 67              /* number: its top edge */
#define ESCAPE_STREAM_FIELD_DELETES_DATA 68          /* flag: the data of images is deleted too */
/* number: the first of the ids that are deleted */
#define ESCAPE_STREAM_FIELD_FIRST_IMAGE_ID 69
#define ESCAPE_STREAM_FIELD_LAST_IMAGE_ID 70         /* number: the last */
/* number: the answers of the terminal. 0 all, 1 errors alone, 2 none */
#define ESCAPE_STREAM_FIELD_VERBOSITY 71

/* The kinds of values. */
#define ESCAPE_STREAM_VALUE_NUMBER 0 /* `number` */
#define ESCAPE_STREAM_VALUE_TEXT 1   /* `length` bytes of `out`, from `offset` on */
#define ESCAPE_STREAM_VALUE_SIZE 2   /* `length`, a number of bytes */

/* A field of a command. A member that has no meaning for its kind is 0. */
struct escape_stream_field {
    uint32_t name; /* which part of the command it is: ESCAPE_STREAM_FIELD_.. */
    uint32_t kind; /* its value: ESCAPE_STREAM_VALUE_.. */
    int64_t number;
    size_t offset;
    size_t length;
};

/* A command. */
struct escape_stream_osc {
    uint32_t kind;      /* which one: ESCAPE_STREAM_OSC_.. */
    size_t field_count; /* how many fields it has */
    size_t text_length; /* how many bytes their texts have together */
};

/*
 * Reads the text of an operating system command, the bytes between ESC ] and their end: the text of
 * an event ESCAPE_STREAM_OSC of escape_stream_next. Any bytes are such a text.
 *
 *   text, length           the text, and how many bytes it has
 *   osc                    receives the kind of the command, and the room that its fields and
 *                          their texts need
 *   fields, field_room     receives its fields; there is room for `field_room` of them
 *   out, capacity          receives their texts, one after another; there is room for
 *                          `capacity` bytes
 *
 * ESCAPE_STREAM_DONE: `*osc` is that of the command, whatever the room. At the beginning of
 * `fields` are its fields, as many as there is room for, and at the beginning of `out` their texts,
 * as much as there is room for; all else is as it was. Each field is there if `osc->field_count
 * <= field_room`, and each text if `osc->text_length <= capacity`; if they are not, call
 * again with room.
 *
 * ESCAPE_STREAM_NO_MEMORY is the only other status. The call takes memory for the command and its
 * fields, and gives it back before it returns.
 *
 * Example: the title of a window.
 *
 *     struct escape_stream_osc osc = {0};
 *     struct escape_stream_field fields[8] = {0};
 *     uint8_t out[256] = {0};
 *     if (escape_stream_read_osc(text, length, &osc, fields, 8, out, sizeof out) ==
 *             ESCAPE_STREAM_DONE &&
 *         osc.kind == ESCAPE_STREAM_OSC_SET_WINDOW_TITLE && osc.text_length <= sizeof out)
 *         set_title(out, fields[0].length);
 */
uint32_t escape_stream_read_osc(
    const uint8_t *text, size_t length, struct escape_stream_osc *osc,
    struct escape_stream_field *fields, size_t field_room, uint8_t *out, size_t capacity);

/*
 * The kinds of commands of kitty's graphics protocol, and which fields each has, in order, as for
 * those of operating system commands. A deletion has a kind for each thing that is deleted. Later
 * versions may add some.
 *
 * identified   [IMAGE_ID], [IMAGE_NUMBER]
 * transmitted  CONTENT, MEDIUM, [DATA_SIZE], [DATA_OFFSET], [FORMAT], [PIXEL_WIDTH],
 *              [PIXEL_HEIGHT], [IMAGE_ID], [IMAGE_NUMBER], COMPRESSION, MORE_DATA_FOLLOWS
 * placed       [X], [Y], [WIDTH], [HEIGHT], [X_OFFSET], [Y_OFFSET], [COLUMNS], [ROWS],
 *              [PLACEMENT_ID], DO_NOT_MOVE_CURSOR, [Z_INDEX], UNICODE_PLACEHOLDER
 * framed       [X], [Y], [BASE_FRAME], [FRAME_NUMBER], [DURATION], COMPOSITION_MODE,
 *              [BACKGROUND_PIXEL]
 * composed     [TARGET_FRAME], [SOURCE_FRAME], [X], [Y], [WIDTH], [HEIGHT], [SOURCE_X], [SOURCE_Y],
 *              COMPOSITION_MODE
 */
#define ESCAPE_STREAM_KITTY_NONE 0                       /* none: the text is no image */
/* transmitted, VERBOSITY: keeps an image */
#define ESCAPE_STREAM_KITTY_TRANSMIT_DATA 1
/* transmitted, placed, VERBOSITY: keeps an image and shows it */
#define ESCAPE_STREAM_KITTY_TRANSMIT_DATA_AND_DISPLAY 2
/* identified, placed, VERBOSITY: shows an image */
#define ESCAPE_STREAM_KITTY_DISPLAY 3
/* transmitted: asks whether it could be kept */
#define ESCAPE_STREAM_KITTY_QUERY 4
/* transmitted, framed, VERBOSITY: keeps a frame */
#define ESCAPE_STREAM_KITTY_TRANSMIT_FRAME 5
/* identified, composed, VERBOSITY: puts a frame over another */
#define ESCAPE_STREAM_KITTY_COMPOSE_FRAME 6
/* DELETES_DATA, VERBOSITY: and so at the end of all below */
#define ESCAPE_STREAM_KITTY_DELETE_ALL 7
#define ESCAPE_STREAM_KITTY_DELETE_BY_IMAGE_ID 8         /* IMAGE_ID, [PLACEMENT_ID] */
#define ESCAPE_STREAM_KITTY_DELETE_BY_IMAGE_NUMBER 9     /* IMAGE_NUMBER, [PLACEMENT_ID] */
#define ESCAPE_STREAM_KITTY_DELETE_AT_CURSOR_POSITION 10 /* none more */
#define ESCAPE_STREAM_KITTY_DELETE_ANIMATION_FRAMES 11   /* none more */
#define ESCAPE_STREAM_KITTY_DELETE_AT 12                 /* X, Y */
#define ESCAPE_STREAM_KITTY_DELETE_AT_Z 13               /* X, Y, Z_INDEX */
#define ESCAPE_STREAM_KITTY_DELETE_COLUMN 14             /* X */
#define ESCAPE_STREAM_KITTY_DELETE_ROW 15                /* Y */
#define ESCAPE_STREAM_KITTY_DELETE_Z 16                  /* Z_INDEX */
#define ESCAPE_STREAM_KITTY_DELETE_BY_IMAGE_ID_RANGE 17  /* FIRST_IMAGE_ID, LAST_IMAGE_ID */

/*
 * The kinds of CONTENT of an image. A payload is the text as it came, which is base64 and is not
 * decoded, since it may be cut into several commands. A path and a name are decoded. No text is
 * read as BYTES.
 */
#define ESCAPE_STREAM_MEDIUM_PAYLOAD 0        /* the pixels, in base64 */
#define ESCAPE_STREAM_MEDIUM_BYTES 1          /* the pixels */
#define ESCAPE_STREAM_MEDIUM_FILE 2           /* the path of a file */
/* that of a file which the terminal deletes once it is read */
#define ESCAPE_STREAM_MEDIUM_TEMPORARY_FILE 3
#define ESCAPE_STREAM_MEDIUM_SHARED_MEMORY 4  /* the name of a shared memory object */

/* A command of kitty's graphics protocol. */
struct escape_stream_image {
    uint32_t kind;      /* which one: ESCAPE_STREAM_KITTY_.. */
    size_t field_count; /* how many fields it has, at most 24 */
    size_t text_length; /* how many bytes their texts have together */
};

/*
 * Reads the text of an application program command as a command of kitty's graphics protocol: the
 * bytes between ESC _ and their end, the text of an event ESCAPE_STREAM_APC of escape_stream_next.
 * Any bytes are such a text; if they are no such command, the kind is ESCAPE_STREAM_KITTY_NONE,
 * without a field.
 *
 * The arguments, the statuses and the output are as in escape_stream_read_osc.
 *
 * Example: the size of an image that is sent.
 *
 *     struct escape_stream_image image = {0};
 *     struct escape_stream_field fields[24] = {0};
 *     uint8_t out[1] = {0};
 *     if (escape_stream_read_kitty(text, length, &image, fields, 24, out, 0) == ESCAPE_STREAM_DONE)
 *         for (size_t i = 0; i < image.field_count; i++)
 *             if (fields[i].name == ESCAPE_STREAM_FIELD_PIXEL_WIDTH)
 *                 width = fields[i].number;
 */
uint32_t escape_stream_read_kitty(
    const uint8_t *text, size_t length, struct escape_stream_image *image,
    struct escape_stream_field *fields, size_t field_room, uint8_t *out, size_t capacity);

/* A termcap query. */
struct escape_stream_query {
    size_t name_count;  /* how many names it has, at least one */
    size_t text_length; /* how many bytes these have together */
};

/*
 * Reads the names that a termcap query asks for (XTGETTCAP), of the data between ESC P + q and its
 * end: that of the events after an event ESCAPE_STREAM_DCS with the byte `q` and the one
 * intermediate `+`, put together. Any bytes are such data. Each name is a field
 * ESCAPE_STREAM_FIELD_NAME: the decoded hexadecimal, or the text as it is if it is not hexadecimal.
 *
 * The arguments, the statuses and the output are as in escape_stream_read_osc.
 */
uint32_t escape_stream_read_tcap(
    const uint8_t *text, size_t length, struct escape_stream_query *query,
    struct escape_stream_field *fields, size_t field_room, uint8_t *out, size_t capacity);

/* The kinds of items of a sixel image, and the members that have a meaning for each. */
#define ESCAPE_STREAM_SIXEL_PIXELS 0          /* pixels; count is 1 */
#define ESCAPE_STREAM_SIXEL_REPEAT 1          /* pixels, count: the same so many times */
/* color, red, green, blue: gives a colour to a number, and selects it */
#define ESCAPE_STREAM_SIXEL_DEFINE_RGB 2
#define ESCAPE_STREAM_SIXEL_DEFINE_HSL 3      /* color, hue, lightness, saturation: the same */
#define ESCAPE_STREAM_SIXEL_SELECT 4          /* color: selects it */
/* back to the start of the line, over which is drawn */
#define ESCAPE_STREAM_SIXEL_CARRIAGE_RETURN 5
#define ESCAPE_STREAM_SIXEL_NEW_LINE 6        /* to the start of the next band of six lines */

/* An item of a sixel image. A member that has no meaning for its kind is 0. */
struct escape_stream_sixel_item {
    uint32_t kind;  /* ESCAPE_STREAM_SIXEL_.. */
    uint32_t count; /* how many times its pixels come */
    uint16_t color; /* the number of a colour */
    uint16_t hue;   /* in degrees, from 0 to 360; larger ones are as they were written */
    uint8_t pixels; /* six, one above the other, the top one the lowest bit */
    uint8_t red, green, blue;          /* from 0 to 255 */
    uint8_t lightness, saturation;     /* from 0 to 100; larger ones are as they were written */
};

/* A sixel image. */
struct escape_stream_sixel {
    int64_t pan, pad;                    /* a pixel is pan units high and pad wide */
    int64_t grid_size;                   /* the horizontal grid size, if `has_grid_size` */
    /* as raster attributes say, if `has_pixel_width` and `has_pixel_height` */
    uint32_t pixel_width, pixel_height;
    /* those, if both are there, and else those of the drawn pixels */
    uint32_t width, height;
    bool has_grid_size, has_pixel_width, has_pixel_height;
    bool background_is_transparent;      /* pixels of 0 leave the old pixels */
    size_t item_count;                   /* how many items its data has */
};

/*
 * Reads a sixel image, of the parameters and the data between ESC P and its end: those of an event
 * ESCAPE_STREAM_DCS with the byte `q` and no intermediate, and those of the events after it, put
 * together. Any parameters and any bytes are such an image.
 *
 *   params, count          the parameters, and how many there are; one that is missing before
 *                          others is 0
 *   text, length           the data, and how many bytes it has
 *   sixel                  receives the image without its items, and the room that these need
 *   items, item_room       receives its items; there is room for `item_room` of them
 *
 * The items come in an array, one an item, so a loop over it with a switch by `kind` draws the
 * image; PIXELS and REPEAT may be one case, `count` times `pixels`. There are no more than
 * `length`, so that room for so many is enough at the first call.
 *
 * ESCAPE_STREAM_DONE: `*sixel` is that of the image, whatever the room. At the beginning of `items`
 * are its items, as many as there is room for; the others are as they were. ESCAPE_STREAM_NO_MEMORY
 * is the only other status. The call takes memory for the image, and gives it back before it
 * returns.
 */
uint32_t escape_stream_read_sixel(
    const int64_t *params, size_t count, const uint8_t *text, size_t length,
    struct escape_stream_sixel *sixel, struct escape_stream_sixel_item *items, size_t item_room);

/*
 * Writes a command: ESC ], its text and ESC \. A command that was read in another spelling, as a
 * title that BEL ended or a color by its name, is written in this one.
 *
 *   kind               which command: ESCAPE_STREAM_OSC_..
 *   fields, count      its fields, in the order that the kind has them, and how many there are
 *   text, text_length  the texts of these fields one after another, in the order of the fields, and
 *                      how many bytes they have
 *   out, capacity      receives the command; there is room for `capacity` bytes
 *   needed             receives the length of the whole command
 *
 * The kind, the fields and the texts are as escape_stream_read_osc writes them: the first text has
 * the offset 0, each other the offset at which the one before it ends, and a member that has no
 * meaning for the kind of a field is 0.
 *
 * ESCAPE_STREAM_DONE: at the beginning of `out` is the command, as much of it as there is room for,
 * and all else there is as it was. `*needed` is its length, whatever the room; if it is more
 * than `capacity`, call again with room. The text between ESC ] and ESC \ holds no control but DEL,
 * and escape_stream_read_osc reads this kind, these fields and these texts of it.
 *
 * ESCAPE_STREAM_NO_COMMAND: no command has this kind and these fields, as when a field is missing,
 * comes twice or has a name that the kind has not, a number is out of its range, a text is not
 * UTF-8, or a link's keys are not in order.
 *
 * ESCAPE_STREAM_NOT_WRITABLE: one has them, but its text would not read back as it, as that of a
 * title with a control, of a text with a `;` if that would divide it, or of
 * ESCAPE_STREAM_OSC_ITERM_REPORT_VARIABLE, which has no reading.
 *
 * ESCAPE_STREAM_NO_MEMORY is the only other status. The call takes memory for the command and its
 * text, and gives it back before it returns.
 *
 * Example: a title.
 *
 *     struct escape_stream_field field = {
 *         ESCAPE_STREAM_FIELD_TEXT, ESCAPE_STREAM_VALUE_TEXT, 0, 0, length};
 *     uint8_t out[256] = {0};
 *     size_t needed = 0;
 *     uint32_t status = escape_stream_write_osc(
 *         ESCAPE_STREAM_OSC_SET_WINDOW_TITLE, &field, 1, title, length, out, sizeof out, &needed);
 *     if (status == ESCAPE_STREAM_DONE && needed <= sizeof out)
 *         fwrite(out, 1, needed, stdout);
 */
uint32_t escape_stream_write_osc(
    uint32_t kind, const struct escape_stream_field *fields, size_t count, const uint8_t *text,
    size_t text_length, uint8_t *out, size_t capacity, size_t *needed);

/*
 * Writes a command of kitty's graphics protocol: ESC _, its keys and its payload, and ESC \.
 *
 *   kind               which command: ESCAPE_STREAM_KITTY_..
 *   fields, text       its fields and their texts, as escape_stream_read_kitty writes them and as
 *                      escape_stream_write_osc takes them
 *
 * The other arguments are those of escape_stream_write_osc. So are the statuses and the output,
 * with escape_stream_read_kitty in the place of escape_stream_read_osc; the text between ESC _ and
 * ESC \ has bytes from space to DEL alone.
 *
 * ESCAPE_STREAM_NO_COMMAND: no command has this kind and these fields, as ESCAPE_STREAM_KITTY_NONE
 * has none.
 *
 * ESCAPE_STREAM_NOT_WRITABLE: one has them, but its text would not read back as it: a payload with
 * another byte than those, one that is ESCAPE_STREAM_MEDIUM_BYTES, since base64 is read as
 * ESCAPE_STREAM_MEDIUM_PAYLOAD, or the number 0 of a frame or a duration, which is read as none.
 */
uint32_t escape_stream_write_kitty(
    uint32_t kind, const struct escape_stream_field *fields, size_t count, const uint8_t *text,
    size_t text_length, uint8_t *out, size_t capacity, size_t *needed);

/*
 * Writes a termcap query (XTGETTCAP): ESC P + q, its names in hexadecimal with `;` between them,
 * and ESC \.
 *
 *   fields, text       a field ESCAPE_STREAM_FIELD_NAME for each name, and their texts, as
 *                      escape_stream_read_tcap writes them and as escape_stream_write_osc takes
 *                      them
 *
 * The other arguments are those of escape_stream_write_osc. So are the statuses and the output,
 * with escape_stream_read_tcap in the place of escape_stream_read_osc; the text between ESC P + q
 * and ESC \ has digits from 0 to 9 and from a to f, and `;`, alone.
 *
 * ESCAPE_STREAM_NO_COMMAND: no names have these fields, as when a name is not UTF-8.
 * ESCAPE_STREAM_NOT_WRITABLE: there is no name, which would be read as one that is empty.
 */
uint32_t escape_stream_write_tcap(
    const struct escape_stream_field *fields, size_t count, const uint8_t *text,
    size_t text_length, uint8_t *out, size_t capacity, size_t *needed);

/*
 * Writes a sixel image: ESC P, parameters, `q`, data and ESC \.
 *
 *   sixel              the image but for its items. Its `width`, `height` and `item_count` follow
 *                      from the rest, and are not looked at
 *   items, count       its items, and how many there are
 *   out, capacity      receives the image; there is room for `capacity` bytes
 *   needed             receives the length of the whole image
 *
 * The rest of `sixel` and the items are as escape_stream_read_sixel writes them: what is absent, or
 * has no meaning for the kind of an item, is 0.
 *
 * ESCAPE_STREAM_DONE: at the beginning of `out` is the image, as much of it as there is room for,
 * and all else there is as it was. `*needed` is its length, whatever the room; if it is more
 * than `capacity`, call again with room. The parameters are of digits and `;`, the data is of bytes
 * from space to ~, and escape_stream_read_sixel reads this image and these items of the two.
 *
 * ESCAPE_STREAM_NO_COMMAND: no image has these values, as when an item has an unknown kind, or a
 * colour that it has no use for.
 *
 * ESCAPE_STREAM_NOT_WRITABLE: one has them, but its text would not read back as it: a number that
 * is negative, a pixel width without a height or the other way round, or so large that there are
 * more than 100,000,000 pixels, six pixels over 63, or red, green or blue that are none of 0, 2, 5,
 * 7, .., 255, which the percentages from 0 to 100 are read as: 255 * n / 100, without what is left
 * over.
 *
 * ESCAPE_STREAM_NO_MEMORY is the only other status. The call takes memory for the image and its
 * text, and gives it back before it returns.
 *
 * Example: a picture of one red pixel.
 *
 *     struct escape_stream_sixel sixel = {.pan = 1, .pad = 1};
 *     struct escape_stream_sixel_item items[] = {
 *         {.kind = ESCAPE_STREAM_SIXEL_DEFINE_RGB, .color = 1, .red = 255},
 *         {.kind = ESCAPE_STREAM_SIXEL_PIXELS, .count = 1, .pixels = 1}};
 *     uint8_t out[64] = {0};
 *     size_t needed = 0;
 *     if (escape_stream_write_sixel(&sixel, items, 2, out, sizeof out, &needed) ==
 *             ESCAPE_STREAM_DONE &&
 *         needed <= sizeof out)
 *         fwrite(out, 1, needed, stdout);
 */
uint32_t escape_stream_write_sixel(
    const struct escape_stream_sixel *sixel, const struct escape_stream_sixel_item *items,
    size_t count, uint8_t *out, size_t capacity, size_t *needed);

#ifdef __cplusplus
}
#endif

#endif
