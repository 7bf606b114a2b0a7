/* Stands before the C library's calls that make a file longer, for tests/files: a disk with room for ROOM bytes, in all
   files that are written together. A write takes what fits, as on a disk of the host, and where nothing does it is
   refused for that. */
#define _GNU_SOURCE
#include <dlfcn.h>
#include <errno.h>
#include <stdlib.h>
#include <sys/stat.h>
#include <unistd.h>

enum { FILES = 256 };

#define NEXT(name) ((__typeof__(&name))dlsym(RTLD_NEXT, #name))

static int is_written[FILES];

static off_t length_of(int file) {
    struct stat found;
    return fstat(file, &found) == 0 && S_ISREG(found.st_mode) ? found.st_size : 0;
}

/* How long a file may become. */
static off_t most(int file) {
    const char *text = getenv("ROOM");
    off_t left = text ? atoll(text) : 0;
    if (file >= 0 && file < FILES) is_written[file] = 1;
    for (int other = 0; other < FILES; other++)
        if (is_written[other] && other != file) left -= length_of(other);
    return left;
}

static int no_room(void) {
    errno = ENOSPC;
    return -1;
}

/* How much of a write has room. */
static size_t fitting(int file, size_t length, off_t place) {
    off_t end = most(file), stands = length_of(file);
    if (end < stands) end = stands;
    if (place >= end) return 0;
    return (off_t)length < end - place ? length : (size_t)(end - place);
}

ssize_t pwrite64(int file, const void *bytes, size_t length, off64_t place) {
    size_t fits = fitting(file, length, place);
    return length && !fits ? no_room() : NEXT(pwrite64)(file, bytes, fits, place);
}

ssize_t pwrite(int file, const void *bytes, size_t length, off_t place) {
    size_t fits = fitting(file, length, place);
    return length && !fits ? no_room() : NEXT(pwrite)(file, bytes, fits, place);
}

int ftruncate(int file, off_t length) {
    return length > length_of(file) && length > most(file) ? no_room() : NEXT(ftruncate)(file, length);
}

int ftruncate64(int file, off64_t length) {
    return length > length_of(file) && length > most(file) ? no_room() : NEXT(ftruncate64)(file, length);
}
