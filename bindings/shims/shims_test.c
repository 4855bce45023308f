/* SPDX-License-Identifier: MIT */
/*
 * Tests the functions in C: run with the arguments `first`, an empty one and `third word`, with
 * A_NAME=value in the environment, in a folder that may be written.
 */
#define _GNU_SOURCE
#include "shims.h"
#include <errno.h>
#include <fcntl.h>
#include <stdio.h>
#include <stdlib.h>
#include <string.h>
#include <sys/socket.h>
#include <sys/stat.h>
#include <unistd.h>

#define CHECK(what) ((what) ? (void)0 : fail(__LINE__, #what))

static void fail(int line, const char *what)
{
    fprintf(stderr, "bindings/shims/test.c:%d: %s\n", line, what);
    exit(1);
}

static const uint8_t *bytes(const char *text) { return (const uint8_t *)text; }

static void test_heap(void)
{
    struct tried it = rattle_alloc(3, 1), none = rattle_alloc(0, 16), more;
    CHECK(it.ok && it.p && none.ok && none.p && (uintptr_t)it.p % 16 == 0);
    memcpy(it.p, "abc", 3);
    more = rattle_realloc(it.p, 3, 100000, 1);
    CHECK(more.ok && memcmp(more.p, "abc", 3) == 0);
    it = rattle_alloc((size_t)PTRDIFF_MAX, 1);
    CHECK(!it.ok && it.p);
    it = rattle_realloc(more.p, 3, (size_t)PTRDIFF_MAX, 1);
    CHECK(!it.ok && it.p && memcmp(more.p, "abc", 3) == 0);
    it = rattle_realloc(more.p, 0, 0, 8);
    CHECK(it.ok && it.p);
    rattle_dealloc(it.p);
    rattle_dealloc(none.p);
}

static void test_words(void)
{
    uint8_t out[16] = {0};
    CHECK(rattle_arg_count() == 4);
    CHECK(rattle_arg(1, out, 16) == 5 && memcmp(out, "first", 5) == 0);
    CHECK(rattle_arg(2, out, 16) == 0 && rattle_arg(2, out, 0) == 0);
    CHECK(rattle_arg(3, out, 10) == 10 && memcmp(out, "third word", 10) == 0);
    CHECK(rattle_arg(3, out, 4) == -2 && rattle_arg(3, out, 0) == -2);
    CHECK(rattle_arg(4, out, 16) == -1 && rattle_arg(SIZE_MAX, out, 16) == -1);
    CHECK(rattle_env("A_NAME", out, 16) == 5 && memcmp(out, "value", 5) == 0);
    CHECK(rattle_env("A_NAME", out, 4) == -2 && memcmp(out, "valu", 4) == 0);
    CHECK(rattle_env("ANOTHER_NAME", out, 16) == -1);
    CHECK(rattle_env_at(0, out, 0) == -2 && rattle_env_at(SIZE_MAX, out, 16) == -1);
}

static void test_files(void)
{
    int file = open("file", O_RDWR | O_CREAT | O_TRUNC, 0600), dir;
    CHECK(file >= 0 && mkdir("dir", 0700) == 0 && symlink("dir", "link") == 0);
    dir = rattle_open_dir_at(AT_FDCWD, "dir");
    CHECK(dir >= 0 && fcntl(dir, F_GETFD) == FD_CLOEXEC && close(dir) == 0);
    CHECK(rattle_open_dir_at(AT_FDCWD, "link") == -1);
    CHECK(rattle_open_dir_at(AT_FDCWD, "file") == -1 && rattle_errno() == ENOTDIR);
    rattle_set_errno(ENOENT);
    CHECK(rattle_errno() == ENOENT);
    CHECK(rattle_set_nonblocking(file, true) == 0 && (fcntl(file, F_GETFL) & O_NONBLOCK));
    CHECK(rattle_set_nonblocking(file, false) == 0 && !(fcntl(file, F_GETFL) & O_NONBLOCK));
    CHECK(rattle_lock_range(file, F_WRLCK, 0, 10) == 0);
    dir = open("file", O_RDWR);
    CHECK(dir >= 0 && rattle_lock_range(dir, F_WRLCK, 9, 1) == -1);
    CHECK(rattle_lock_range(dir, F_WRLCK, 10, 1) == 0 && close(dir) == 0);
    CHECK(unlink("link") == 0 && rmdir("dir") == 0 && unlink("file") == 0 && close(file) == 0);
}

static void test_parts(void)
{
    int ends[2];
    char text[8] = {0};
    CHECK(pipe(ends) == 0);
    CHECK(rattle_write_parts(ends[1], false, bytes("a"), 1, bytes(""), 0, bytes("bc"), 2,
                             bytes("d"), 1) == 4);
    CHECK(read(ends[0], text, 8) == 4 && strcmp(text, "abcd") == 0);
    CHECK(close(ends[0]) == 0 && close(ends[1]) == 0);
    CHECK(socketpair(AF_UNIX, SOCK_STREAM, 0, ends) == 0 && close(ends[0]) == 0);
    CHECK(rattle_write_parts(ends[1], true, bytes("a"), 1, bytes(""), 0, bytes(""), 0, bytes(""),
                             0) == -1);
    CHECK(errno == EPIPE && close(ends[1]) == 0);
}

int main(void)
{
    test_heap();
    test_words();
    test_files();
    test_parts();
    return 0;
}
