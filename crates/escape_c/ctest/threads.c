/* SPDX-License-Identifier: MIT */
/*
 * Begins each object that takes a stream in chunks in one thread, feeds it in three others, one
 * after another, and ends it in the first; and has four threads at once do so with objects of their
 * own. The texts are those of one thread alone. Prints what differs, and ends with 1 where
 * something does.
 */
#include "escape_stream.h"
#include "escape_stream_screen.h"
#include <pthread.h>
#include <stdio.h>
#include <string.h>

enum { CHUNKS = 3, ROOM = 256, AT_ONCE = 4 };

static const char *const STREAM[CHUNKS] = {"a\x1b]0;a ti", "tle\x07\x1b[3", "1mred\n"};

/* The objects, what they gave, and which chunk is next. */
struct work {
    struct escape_stream_filter_state filter;
    struct escape_stream_sanitizer log;
    struct escape_stream_html page;
    struct escape_stream_normaliser form;
    struct escape_stream_screen screen;
    uint8_t out[4][ROOM];
    size_t length[4];
    int next, failed;
};

static void add_texts(struct work *work)
{
    uint8_t *out[4];
    size_t room[4];

    for (int i = 0; i < 4; i++) {
        out[i] = work->out[i] + work->length[i];
        room[i] = ROOM - work->length[i];
    }
    work->length[0] += escape_stream_filter_output(&work->filter, 0, out[0], room[0]);
    work->length[1] += escape_stream_sanitizer_output(&work->log, 0, out[1], room[1]);
    work->length[2] += escape_stream_html_output(&work->page, 0, out[2], room[2]);
    work->length[3] += escape_stream_normal_output(&work->form, 0, out[3], room[3]);
}

static void begin(struct work *work)
{
    const struct escape_stream_sanitizer_options options = ESCAPE_STREAM_SANITIZER_OPTIONS_INIT;

    memset(work, 0, sizeof *work);
    work->failed |=
        escape_stream_filter_begin(&work->filter, ESCAPE_STREAM_POLICY_COLOR, 64) != 0 ||
        escape_stream_sanitizer_begin(&work->log, &options) != 0 ||
        escape_stream_html_begin(&work->page, false, false, 64) != 0 ||
        escape_stream_normal_begin(&work->form, 64) != 0 ||
        escape_stream_screen_begin(&work->screen, 20, 2, 0) != 0;
}

static void *feed(void *argument)
{
    struct work *work = argument;
    const uint8_t *bytes = (const uint8_t *)STREAM[work->next];
    size_t length = strlen(STREAM[work->next++]);

    work->failed |= escape_stream_filter_feed(&work->filter, bytes, length) != 0 ||
                    escape_stream_sanitizer_feed(&work->log, bytes, length) != 0 ||
                    escape_stream_html_feed(&work->page, bytes, length) != 0 ||
                    escape_stream_normal_feed(&work->form, bytes, length) != 0 ||
                    escape_stream_screen_feed(&work->screen, bytes, length) != 0;
    add_texts(work);
    return NULL;
}

static void end(struct work *work)
{
    uint8_t row[ROOM] = {0};
    size_t length = 0;

    work->failed |= escape_stream_filter_finish(&work->filter) != 0 ||
                    escape_stream_sanitizer_finish(&work->log) != 0 ||
                    escape_stream_html_finish(&work->page) != 0 ||
                    escape_stream_normal_finish(&work->form) != 0 ||
                    escape_stream_screen_text(&work->screen, 0, row, ROOM, &length) != 0;
    add_texts(work);
    work->failed |= length != 4 || memcmp(row, "ared", 4) != 0;
    escape_stream_filter_end(&work->filter);
    escape_stream_sanitizer_end(&work->log);
    escape_stream_html_end(&work->page);
    escape_stream_normal_end(&work->form);
    escape_stream_screen_end(&work->screen);
}

static void *all(void *argument)
{
    begin(argument);
    for (int i = 0; i < CHUNKS; i++)
        feed(argument);
    end(argument);
    return NULL;
}

static int differ(const struct work *work, const struct work *wanted, const char *how)
{
    bool differs = work->failed ||
                   memcmp(work->length, wanted->length, sizeof work->length) != 0 ||
                   memcmp(work->out, wanted->out, sizeof work->out) != 0;

    if (differs)
        fprintf(stderr, "%s: another text\n", how);
    return differs;
}

int main(void)
{
    static struct work alone, moved, own[AT_ONCE];
    pthread_t threads[AT_ONCE];
    int failed = 0, begun = 0;

    all(&alone);
    begin(&moved);
    for (int i = 0; i < CHUNKS && pthread_create(&threads[0], NULL, feed, &moved) == 0; i++)
        pthread_join(threads[0], NULL);
    end(&moved);
    failed |= differ(&moved, &alone, "from thread to thread");
    while (begun < AT_ONCE && pthread_create(&threads[begun], NULL, all, &own[begun]) == 0)
        begun++;
    for (int i = 0; i < begun; i++)
        pthread_join(threads[i], NULL);
    for (int i = 0; i < AT_ONCE; i++)
        failed |= differ(&own[i], &alone, "threads at once");
    return failed || alone.failed || alone.length[0] != strlen("a\x1b[31mred\n\x1b[0m");
}
