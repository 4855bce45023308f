/* SPDX-License-Identifier: MIT */
/* The calls that take a stream whole: what they write, in room of each length. */
#include "hard.h"
#include "escape_stream.h"

#include <string.h>

enum {
    EACH_ROOM_UP_TO = 24,
    EACH_ROOM_OF_SOME = 2000,
    BESIDE = 32,
    UNTOUCHED = 99,
    LARGE = 1048576
};

static struct area outs, numbers;
static uint8_t normals[TEXT_ROOM], agains[TEXT_ROOM], texts[TEXT_ROOM];

void begin_texts(void) {
    outs = guarded(TEXT_ROOM);
    numbers = guarded(PAGE);
}

static uint32_t
run(const struct text_call *call, struct bytes stream, uint8_t *out, size_t capacity,
    size_t *needed) {
    uint32_t status;
    *needed = UNTOUCHED;
    at_hand.calls++;
    at_hand.call = call->filters ? "escape_stream_filter" : "escape_stream_normal";
    status = call->filters
                 ? escape_stream_filter(
                       call->policy, call->limit, stream.at, stream.length, out, capacity, needed)
                 : escape_stream_normal(stream.at, stream.length, out, capacity, needed);
    if (blocks != 0)
        fails("blocks were not given back", (size_t)blocks);
    return status;
}

static size_t *a_number(void) {
    return (size_t *)(void *)placed(&numbers, sizeof(size_t));
}

static bool is_junk(const uint8_t *bytes, size_t length) {
    for (size_t i = 0; i < length; i++)
        if (bytes[i] != JUNK)
            return false;
    return true;
}

/* All that a call writes, copied to `to`. */
static struct bytes written(const struct text_call *call, uint8_t *to) {
    size_t *needed = a_number();
    if (run(call, lent(call->stream), outs.at, outs.size, needed) != ESCAPE_STREAM_DONE)
        fails("another status", 0);
    if (*needed > outs.size)
        fails("a text that is longer than this program has room for", *needed);
    memcpy(to, outs.at, *needed);
    memset(outs.at, JUNK, *needed);
    if (!is_junk(outs.at, *needed + BESIDE < outs.size ? *needed + BESIDE : outs.size))
        fails("a byte past the text was written, which has", *needed);
    return (struct bytes){to, *needed};
}

static bool is_same(struct bytes one, struct bytes other) {
    return one.length == other.length && memcmp(one.at, other.at, one.length) == 0;
}

/* With room for so many bytes as many of the text are written, and nothing else in the room or
 * beside it. */
static void
check_room(const struct text_call *call, struct bytes stream, struct bytes text, size_t capacity) {
    uint8_t *out = placed(&outs, capacity);
    size_t *needed = a_number(), fits = capacity < text.length ? capacity : text.length;
    at_hand.rooms++;
    if (run(call, stream, out, capacity, needed) != ESCAPE_STREAM_DONE || *needed != text.length)
        fails("another status, or another length is needed, in room for", capacity);
    if (memcmp(out, text.at, fits) != 0)
        fails("other bytes in room for", capacity);
    memset(out, JUNK, fits);
    if (!is_junk(out, capacity))
        fails("a byte past the text was written in room for", capacity);
    if (out > outs.at ? !is_junk(out - BESIDE, BESIDE) : !is_junk(out + capacity, BESIDE))
        fails("a byte beside the room was written, of", capacity);
}

static void check_rooms(const struct text_call *call, struct bytes text) {
    struct bytes stream = lent(call->stream);
    bool has_all =
        text.length <= EACH_ROOM_UP_TO || (text.length <= EACH_ROOM_OF_SOME && one_in(64));
    for (size_t capacity = 0; has_all && capacity <= text.length + 1; capacity++)
        check_room(call, stream, text, capacity);
    if (has_all)
        return;
    check_room(call, stream, text, 0);
    check_room(call, stream, text, below(text.length));
    check_room(call, stream, text, text.length - 1);
    check_room(call, stream, text, text.length);
    check_room(call, stream, text, text.length + 1 + below(8));
}

/* Where a request for memory is refused, nothing is written. */
static void check_refusal(const struct text_call *call) {
    uint8_t *out = placed(&outs, BESIDE);
    size_t *needed = a_number(), at = 1 + below(8);
    uint32_t status;
    requests = 0;
    refused = at;
    status = run(call, lent(call->stream), out, BESIDE, needed);
    refused = 0;
    if (status == ESCAPE_STREAM_NO_MEMORY && requests >= at && *needed == UNTOUCHED &&
        is_junk(out, BESIDE))
        at_hand.refusals++;
    else if (status != ESCAPE_STREAM_DONE)
        fails("another status, or something written, where memory was refused", at);
    memset(out, JUNK, BESIDE);
}

static void check_is_normal(struct bytes stream, bool wanted) {
    bool *answer = (bool *)(void *)placed(&numbers, sizeof *answer);
    *answer = !wanted;
    at_hand.call = "escape_stream_is_normal";
    at_hand.calls++;
    stream = lent(stream);
    if (escape_stream_is_normal(stream.at, stream.length, answer) != ESCAPE_STREAM_DONE ||
        *answer != wanted)
        fails("another status, or not whether the stream is normal", stream.length);
    if (blocks != 0)
        fails("blocks were not given back", (size_t)blocks);
}

/* Whether all actions of the stream can be written by themselves, as then the policy all writes
 * what `normal` is. */
static bool is_writable(struct bytes stream, struct bytes normal) {
    return is_same(
        written(&(struct text_call){true, ESCAPE_STREAM_POLICY_ALL, LARGE, stream}, texts), normal);
}

/* The normal form of a stream whose actions can be written by themselves is its own normal form. */
static void check_normal(struct bytes stream) {
    struct text_call call = {false, 0, 0, stream};
    struct bytes normal = written(&call, normals);
    bool has_one = is_same(written(&(struct text_call){false, 0, 0, normal}, agains), normal);
    if (!has_one && is_writable(stream, normal))
        fails("a normal form has another", normal.length);
    check_is_normal(stream, is_same(normal, stream));
    check_is_normal(normal, has_one);
    check_rooms(&call, normal);
    if (one_in(4))
        check_refusal(&call);
    check_chunks(&(struct text_call){false, 0, LARGE, stream}, normal);
}

/* Text alone has neither an escape, nor another control, nor DEL. */
static void check_shown(struct bytes text) {
    for (size_t i = 0; i < text.length; i++) {
        uint8_t byte = text.at[i];
        bool is_c1 = byte == 0xc2 && i + 1 < text.length && text.at[i + 1] < 0xa0;
        if (is_c1 || byte == 0x7f || (byte < 0x20 && byte != '\t' && byte != '\n' && byte != '\r'))
            fails("the policy text let a control through, at", i);
    }
}

/* The text that a policy admits is normal, and admitted again. */
static void check_filter(uint32_t policy, struct bytes stream, struct bytes shown) {
    size_t limit = one_in(2) ? LARGE : below(one_in(2) ? 16 : 200);
    struct text_call call = {true, policy, limit, stream};
    struct bytes text = written(&call, texts);
    check_is_normal(text, true);
    if (!is_same(written(&(struct text_call){true, policy, LARGE, text}, agains), text))
        fails("what was admitted is not admitted again, by policy", policy);
    if (policy == ESCAPE_STREAM_POLICY_TEXT) {
        check_shown(text);
        if (!is_same(text, shown))
            fails("the policy text writes something else than the events show", text.length);
    }
    check_rooms(&call, text);
    if (one_in(4))
        check_refusal(&call);
    check_chunks(&call, text);
}

/* Nothing is written for an unknown policy. */
static void check_unknown(struct bytes stream) {
    struct text_call call = {true, (uint32_t)next_number() | 4, LARGE, stream};
    uint8_t *out = placed(&outs, BESIDE);
    size_t *needed = a_number();
    if (run(&call, lent(stream), out, BESIDE, needed) != ESCAPE_STREAM_UNKNOWN_POLICY)
        fails("another status of an unknown policy", call.policy);
    if (*needed != UNTOUCHED || !is_junk(out, BESIDE))
        fails("something was written by an unknown policy", call.policy);
}

/* `shown` is what the events of the stream show. */
void check_texts(struct bytes stream, struct bytes shown) {
    check_normal(stream);
    check_filter(ESCAPE_STREAM_POLICY_TEXT, stream, shown);
    check_filter((uint32_t)(1 + below(3)), stream, shown);
    if (one_in(16))
        check_unknown(stream);
}
