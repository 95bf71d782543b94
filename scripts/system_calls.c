/* Preloaded beside a program, writes each of its calls of the system to the file that TRACE names, and lets one of them fail.
 *
 * The first line of a program is `begin`. The line of a call has its kind, its result or minus its errno, the path that it is
 * about, and then, where there are such, numbers (a place in the file, the length that was asked for), a second path, and last
 * the bytes that were read or written, as hexadecimal digits. A descriptor stands for the path that it was opened with, and a
 * connection's for that of its listener.
 *
 * FAULT is a kind, a number and an errno: the call of this kind with this number, from 1, is not made and fails so. Where the
 * errno is 0 it is made, and moves the first half of its bytes alone. What the C library calls inside itself does not come here.
 */
#define _GNU_SOURCE
#include <dlfcn.h>
#include <errno.h>
#include <stdarg.h>
#include <stdio.h>
#include <stdlib.h>
#include <string.h>
#include <sys/ioctl.h>
#include <sys/socket.h>
#include <sys/stat.h>
#include <sys/uio.h>
#include <sys/un.h>

enum { IS_MADE = -1, COMES_SHORT = 0, DESCRIPTORS = 256, PATH_BYTES = 512, PIECES = 8 };

static FILE *trace;
static char fault_kind[32];
static unsigned long fault_number;
static int fault_errno;
static char names[DESCRIPTORS][PATH_BYTES] = {"stdin", "stdout", "stderr"};

__attribute__((constructor)) static void begin(void) {
    const char *path = getenv("TRACE"), *fault = getenv("FAULT");
    if (path != NULL) trace = fopen(path, "ae");
    if (trace != NULL) fputs("begin 0 -\n", trace);
    if (fault != NULL) sscanf(fault, "%31s %lu %d", fault_kind, &fault_number, &fault_errno);
}

/* What becomes of a call: it is made, it comes short, or it fails by this errno. */
static int fate_of(const char *kind, unsigned long number) {
    return number == fault_number && strcmp(kind, fault_kind) == 0 ? fault_errno : IS_MADE;
}

static size_t part(int fate, size_t size) {
    return fate == COMES_SHORT && size > 1 ? size / 2 : size;
}

/* As much of what waits to be read of a stream. */
static size_t waiting(int fate, int file, size_t size) {
    int count = 0;
    if (fate != COMES_SHORT || ioctl(file, FIONREAD, &count) < 0 || count <= 0) return size;
    return part(fate, (size_t)count < size ? (size_t)count : size);
}

/* The first pieces of a call that has several, as much of them as it moves. */
static const struct iovec *parts(int fate, const struct iovec *pieces, int count) {
    static struct iovec cut[PIECES];
    size_t left = 0;
    for (int at = 0; at < count; at++) left += pieces[at].iov_len;
    left = part(fate, left);
    for (int at = 0; at < count && at < PIECES; at++) {
        cut[at] = pieces[at];
        if (left < cut[at].iov_len) cut[at].iov_len = left;
        left -= cut[at].iov_len;
    }
    return cut;
}

static const struct msghdr *message(int fate, const struct msghdr *whole) {
    static struct msghdr cut;
    cut = *whole;
    cut.msg_iov = (struct iovec *)parts(fate, whole->msg_iov, whole->msg_iovlen);
    return &cut;
}

/* ---- what is written of a call */

static const char *name_of(int descriptor) {
    return 0 <= descriptor && descriptor < DESCRIPTORS ? names[descriptor] : "?";
}

static void name(int descriptor, const char *path) {
    if (0 <= descriptor && descriptor < DESCRIPTORS) snprintf(names[descriptor], PATH_BYTES, "%s", path);
}

static void tell(const char *format, ...) {
    va_list rest;
    if (trace == NULL) return;
    va_start(rest, format);
    vfprintf(trace, format, rest);
    va_end(rest);
}

static void tell_bytes(const void *bytes, ssize_t size) {
    for (const unsigned char *at = bytes; trace != NULL && 0 < size; at++, size--) {
        putc("0123456789abcdef"[*at / 16], trace);
        putc("0123456789abcdef"[*at % 16], trace);
    }
}

static void tell_parts(const struct iovec *pieces, ssize_t size) {
    for (; 0 < size; size -= pieces->iov_len, pieces++)
        tell_bytes(pieces->iov_base, (ssize_t)pieces->iov_len < size ? (ssize_t)pieces->iov_len : size);
}

static void end_line(void) {
    if (trace == NULL) return;
    putc('\n', trace);
    fflush(trace);
}

/* ---- the calls */

/* Defines a call of the C library: what it gives where it fails, its outcome as a number, and what is told of it after that. */
#define CALL(type, kind, parameters, arguments, failed, outcome, told) \
    type kind parameters {                                             \
        static type(*next) parameters;                                 \
        static unsigned long calls;                                    \
        if (next == NULL) next = dlsym(RTLD_NEXT, #kind);              \
        int fate = fate_of(#kind, ++calls);                            \
        type result = fate > 0 ? failed : next arguments;              \
        int error = fate > 0 ? fate : errno;                           \
        tell("%s %ld", #kind, (long)(outcome));                        \
        told;                                                          \
        end_line();                                                    \
        errno = error;                                                 \
        return result;                                                 \
    }

#define STATUS (result < 0 ? -error : result)
#define PATH(path) tell(" %s", path)
#define FILE_OF(file) tell(" %s", name_of(file))
#define BYTES(bytes) (tell(" "), tell_bytes(bytes, result))
#define PARTS(pieces) (tell(" "), tell_parts(pieces, result))
#define SOCKET_PATH(at) ((const struct sockaddr_un *)at)->sun_path

/* The header that has these with fewer arguments is not read: one that is not handed over is not looked at. */
CALL(int, open, (const char *path, int how, mode_t mode), (path, how, mode), -1, STATUS,
     (name(result, path), PATH(path), tell(" %d", how)))
CALL(int, openat, (int folder, const char *path, int how, mode_t mode), (folder, path, how, mode), -1, STATUS,
     (name(result, path), PATH(path), tell(" %d", how)))
CALL(int, fcntl, (int file, int command, long word), (file, command, word), -1, STATUS, FILE_OF(file))

CALL(int, fsync, (int file), (file), -1, STATUS, FILE_OF(file))
CALL(int, fdatasync, (int file), (file), -1, STATUS, FILE_OF(file))
CALL(int, ftruncate, (int file, off_t size), (file, size), -1, STATUS, (FILE_OF(file), tell(" %ld", (long)size)))
CALL(int, flock, (int file, int how), (file, how), -1, STATUS, (FILE_OF(file), tell(" %d", how)))
CALL(int, fchmod, (int file, mode_t mode), (file, mode), -1, STATUS, (FILE_OF(file), tell(" %o", mode)))
CALL(int, chmod, (const char *path, mode_t mode), (path, mode), -1, STATUS, (PATH(path), tell(" %o", mode)))
CALL(int, mkdir, (const char *path, mode_t mode), (path, mode), -1, STATUS, PATH(path))
CALL(int, rename, (const char *from, const char *to), (from, to), -1, STATUS, (PATH(from), PATH(to)))
CALL(int, unlink, (const char *path), (path), -1, STATUS, PATH(path))
CALL(int, getentropy, (void *bytes, size_t size), (bytes, size), -1, STATUS, PATH("-"))
CALL(int, getrlimit, (int what, void *limit), (what, limit), -1, STATUS, PATH("-"))
CALL(int, statx, (int file, const char *path, int how, unsigned mask, struct statx *found), (file, path, how, mask, found), -1,
     STATUS, PATH(*path ? path : name_of(file)))
CALL(ssize_t, getdents64, (int file, void *entries, size_t size), (file, entries, size), -1, STATUS, FILE_OF(file))
CALL(char *, realpath, (const char *path, char *found), (path, found), NULL, result == NULL ? -error : 0, PATH(path))
CALL(int, posix_fadvise, (int file, off_t at, off_t size, int advice), (file, at, size, advice), fate, -result, FILE_OF(file))
/* One that fails has closed the file, as on Linux. */
CALL(int, close, (int file), (file), (next(file), -1), STATUS, FILE_OF(file))

CALL(ssize_t, pread, (int file, void *bytes, size_t size, off_t at), (file, bytes, part(fate, size), at), -1, STATUS,
     (FILE_OF(file), tell(" %ld %zu", (long)at, size), BYTES(bytes)))
CALL(ssize_t, pwrite, (int file, const void *bytes, size_t size, off_t at), (file, bytes, part(fate, size), at), -1, STATUS,
     (FILE_OF(file), tell(" %ld %zu", (long)at, size), BYTES(bytes)))
CALL(ssize_t, read, (int file, void *bytes, size_t size), (file, bytes, waiting(fate, file, size)), -1, STATUS,
     (FILE_OF(file), BYTES(bytes)))
CALL(ssize_t, write, (int file, const void *bytes, size_t size), (file, bytes, part(fate, size)), -1, STATUS,
     (FILE_OF(file), BYTES(bytes)))
CALL(ssize_t, writev, (int file, const struct iovec *pieces, int count), (file, parts(fate, pieces, count), count), -1, STATUS,
     (FILE_OF(file), PARTS(pieces)))

CALL(int, socket, (int domain, int type, int protocol), (domain, type, protocol), -1, STATUS, (name(result, "-"), PATH("-")))
CALL(int, bind, (int file, const struct sockaddr *at, socklen_t size), (file, at, size), -1, STATUS,
     (name(file, SOCKET_PATH(at)), FILE_OF(file)))
CALL(int, connect, (int file, const struct sockaddr *at, socklen_t size), (file, at, size), -1, STATUS, PATH(SOCKET_PATH(at)))
CALL(int, listen, (int file, int backlog), (file, backlog), -1, STATUS, FILE_OF(file))
CALL(int, accept4, (int file, struct sockaddr *at, socklen_t *size, int flags), (file, at, size, flags), -1, STATUS,
     (name(result, name_of(file)), FILE_OF(file)))
/* One that comes short first waits for what it halves. */
CALL(ssize_t, recv, (int file, void *bytes, size_t size, int flags),
     (file, bytes, fate == COMES_SHORT ? part(fate, next(file, bytes, size, MSG_PEEK)) : size, flags), -1, STATUS,
     (FILE_OF(file), BYTES(bytes)))
CALL(ssize_t, sendmsg, (int file, const struct msghdr *whole, int flags), (file, message(fate, whole), flags), -1, STATUS,
     (FILE_OF(file), PARTS(whole->msg_iov)))
