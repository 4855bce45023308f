/* SPDX-License-Identifier: MIT */
/*
 * Runs random streams through the calls of escape_stream.h and escape_stream_parser.h.
 *
 *     hard COUNT SEED TABLE..
 *     hard functions
 *
 * COUNT streams, the first from the number SEED, each further one from the next number, so `hard 1
 * SEED` runs one of them again, with the same chunks and in the same room. Each buffer that a call
 * is given ends where memory ends, or begins where it begins, the bytes of a stream cannot be
 * written, and each block that the library asks for ends where memory ends. It says what it ran;
 * where a call does something else than its header says, or faults, it prints the seed and the
 * stream in hexadecimal, and the status is not 0. `hard functions` looks up all bytes among the
 * functions by name. Link it with -Wl,--wrap=malloc,--wrap=realloc,--wrap=free.
 */
#define _GNU_SOURCE
#include "hard.h"

#include <inttypes.h>
#include <signal.h>
#include <stdio.h>
#include <stdlib.h>
#include <string.h>
#include <unistd.h>

struct run at_hand = {.call = "none"};

/* Prints the stream at hand, with nothing but what a handler of a signal may call. */
static void print_stream(void) {
    static char text[256 + 2 * STREAM_ROOM];
    size_t length = (size_t)snprintf(
        text, 256, "hard: in %s, seed %" PRIu64 ", a stream of %zu bytes:\n", at_hand.call,
        at_hand.seed, at_hand.stream.length);
    for (size_t i = 0; i < at_hand.stream.length; i++) {
        text[length++] = "0123456789abcdef"[at_hand.stream.at[i] >> 4];
        text[length++] = "0123456789abcdef"[at_hand.stream.at[i] & 15];
    }
    text[length++] = '\n';
    if (write(STDERR_FILENO, text, length) < 0)
        _exit(3);
}

_Noreturn void fails(const char *what, size_t number) {
    fprintf(stderr, "hard: %s (%zu)\n", what, number);
    print_stream();
    _exit(1);
}

/* A fault: the stream first, and then what would have been done, as the report of a sanitizer. */
static struct sigaction before[NSIG];

static void faulted(int signal) {
    print_stream();
    sigaction(signal, &before[signal], NULL);
}

static void catch_faults(void) {
    static const int SIGNALS[] = {SIGSEGV, SIGBUS, SIGILL, SIGABRT};
    struct sigaction action;
    memset(&action, 0, sizeof action);
    action.sa_handler = faulted;
    action.sa_flags = SA_NODEFER;
    for (size_t i = 0; i < sizeof SIGNALS / sizeof *SIGNALS; i++)
        sigaction(SIGNALS[i], &action, &before[SIGNALS[i]]);
}

static void check_stream(uint64_t seed) {
    at_hand.stream = (struct bytes){NULL, 0};
    at_hand.seed = seed;
    at_hand.call = "none";
    at_hand.stream = random_stream(seed);
    at_hand.streams++;
    at_hand.bytes += at_hand.stream.length;
    check_texts(at_hand.stream, check_events(at_hand.stream));
    if (one_in(4))
        check_logs(at_hand.stream);
    if (one_in(4))
        check_screens(at_hand.stream);
}

static void begin(void) {
    catch_faults();
    begin_blocks();
    begin_events();
    begin_texts();
    begin_chunks();
    begin_logs();
    begin_screens();
    begin_commands();
    begin_writes();
}

int main(int count, char **words) {
    uint64_t most = count > 2 ? strtoull(words[1], NULL, 10) : 0;
    uint64_t seed = count > 2 ? strtoull(words[2], NULL, 10) : 0;
    begin();
    if (count == 2 && strcmp(words[1], "functions") == 0) {
        check_functions();
        check_strings();
        printf("%llu calls of functions by name\n", at_hand.calls);
        return 0;
    }
    if (most == 0) {
        fputs("usage: hard COUNT SEED TABLE..\n       hard functions\n", stderr);
        return 2;
    }
    for (int i = 3; i < count; i++)
        read_table(words[i]);
    for (uint64_t i = 0; i < most; i++)
        check_stream(seed + i);
    printf(
        "%llu streams of %llu bytes from seed %" PRIu64 ", %llu calls, ", at_hand.streams,
        at_hand.bytes, seed, at_hand.calls);
    printf("%llu lengths of room, %llu refusals of memory\n", at_hand.rooms, at_hand.refusals);
    return 0;
}
