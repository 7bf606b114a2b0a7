/* Stands before the C library's read and write, for tests/devices: standard input and output take one byte a call, and
   from the call of a number on (READ_FAILS, WRITE_FAILS, counted from 1; 0 is none) each fails, or takes nothing
   (WRITE_NOTHING). One call of a number is interrupted (READ_AGAIN, WRITE_AGAIN). */
#define _GNU_SOURCE
#include <dlfcn.h>
#include <errno.h>
#include <stdlib.h>
#include <sys/types.h>
#include <unistd.h>

static long number(const char *name) {
    const char *text = getenv(name);
    return text ? atol(text) : 0;
}

static int fails(long call, const char *name) {
    long first = number(name);
    return first && call >= first;
}

ssize_t read(int file, void *to, size_t length) {
    static ssize_t (*next)(int, void *, size_t);
    static long calls;
    if (!next) next = dlsym(RTLD_NEXT, "read");
    if (file != 0) return next(file, to, length);
    if (fails(++calls, "READ_FAILS")) {
        errno = EIO;
        return -1;
    }
    if (calls == number("READ_AGAIN")) {
        errno = EINTR;
        return -1;
    }
    return next(file, to, length > 1 ? 1 : length);
}

ssize_t write(int file, const void *from, size_t length) {
    static ssize_t (*next)(int, const void *, size_t);
    static long calls;
    if (!next) next = dlsym(RTLD_NEXT, "write");
    if (file != 1) return next(file, from, length);
    if (fails(++calls, "WRITE_FAILS")) {
        errno = EIO;
        return -1;
    }
    if (calls == number("WRITE_AGAIN")) {
        errno = EINTR;
        return -1;
    }
    if (fails(calls, "WRITE_NOTHING")) return 0;
    return next(file, from, length > 1 ? 1 : length);
}
