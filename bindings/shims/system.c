/* SPDX-License-Identifier: MIT */
/* The calls of the proved programs to the system, over the C library of GNU. */
#define _GNU_SOURCE
#include "shims.h"
#include <errno.h>
#include <fcntl.h>
#include <stdlib.h>
#include <string.h>
#include <sys/ioctl.h>
#include <sys/socket.h>
#include <sys/uio.h>
#include <unistd.h>

static size_t count;
static char **words;

/* The C library of GNU hands the arguments to what runs before main. */
__attribute__((constructor)) static void keep(int argc, char **argv)
{
    count = (size_t)argc;
    words = argv;
}

/* Puts a text at the beginning of `out`. -2: it does not fit, and `out` is full. */
static ptrdiff_t put(const char *text, uint8_t *out, size_t room)
{
    size_t size = strlen(text);
    memcpy(out, text, size < room ? size : room);
    return size <= room ? (ptrdiff_t)size : -2;
}

size_t rattle_arg_count(void) { return count; }

ptrdiff_t rattle_arg(size_t i, uint8_t *out, size_t room)
{
    return i < count && words[i] ? put(words[i], out, room) : -1;
}

ptrdiff_t rattle_env(const char *name, uint8_t *out, size_t room)
{
    const char *text = getenv(name);
    return text ? put(text, out, room) : -1;
}

ptrdiff_t rattle_env_at(size_t i, uint8_t *out, size_t room)
{
    char **at = environ;
    for (; at && *at && i > 0; i--)
        at++;
    return at && *at ? put(*at, out, room) : -1;
}

int rattle_errno(void) { return errno; }

void rattle_set_errno(int error) { errno = error; }

int rattle_open_dir_at(int dir, const char *name)
{
    return openat(dir, name, O_RDONLY | O_DIRECTORY | O_NOFOLLOW | O_CLOEXEC);
}

int rattle_set_nonblocking(int fd, bool on)
{
    int value = on;
    return ioctl(fd, FIONBIO, &value);
}

int rattle_lock_range(int fd, int16_t kind, int64_t start, int64_t length)
{
    struct flock lock = {
        .l_type = kind, .l_whence = SEEK_SET, .l_start = start, .l_len = length};
    return fcntl(fd, F_OFD_SETLK, &lock);
}

/* The system's calls only read what they are given, though their type does not say so. */
static struct iovec part(const uint8_t *bytes, size_t length)
{
    union {
        const void *read_only;
        void *plain;
    } it = {.read_only = bytes};
    return (struct iovec){it.plain, length};
}

ptrdiff_t rattle_write_parts(int fd, bool is_socket, const uint8_t *a, size_t a_length,
                             const uint8_t *b, size_t b_length, const uint8_t *c, size_t c_length,
                             const uint8_t *d, size_t d_length)
{
    struct iovec parts[4] = {part(a, a_length), part(b, b_length), part(c, c_length),
                             part(d, d_length)};
    struct msghdr message = {.msg_iov = parts, .msg_iovlen = 4};
    return is_socket ? sendmsg(fd, &message, MSG_NOSIGNAL) : writev(fd, parts, 4);
}
