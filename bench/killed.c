/* A library that ends a program by SIGKILL at one call that changes a file: KILLED says which, as NAME:COUNT, counted
 * from 1. See bench/kills. */
#define _GNU_SOURCE
#include <dlfcn.h>
#include <fcntl.h>
#include <signal.h>
#include <stdlib.h>
#include <string.h>
#include <unistd.h>

static void at(const char *name) {
    static long made;
    const char *wanted = getenv("KILLED");
    size_t length = strlen(name);
    if (wanted == NULL || strncmp(wanted, name, length) != 0 || wanted[length] != ':') return;
    if (__atomic_add_fetch(&made, 1, __ATOMIC_SEQ_CST) == atol(wanted + length + 1)) kill(getpid(), SIGKILL);
}

#define NEXT(name) ((__typeof__(&name))dlsym(RTLD_NEXT, #name))

ssize_t pwrite64(int file, const void *bytes, size_t length, off64_t place) {
    at("pwrite64");
    return NEXT(pwrite64)(file, bytes, length, place);
}

ssize_t pwrite(int file, const void *bytes, size_t length, off_t place) {
    at("pwrite64");
    return NEXT(pwrite)(file, bytes, length, place);
}

int ftruncate(int file, off_t length) {
    at("ftruncate");
    return NEXT(ftruncate)(file, length);
}

int ftruncate64(int file, off64_t length) {
    at("ftruncate");
    return NEXT(ftruncate64)(file, length);
}

int fdatasync(int file) {
    at("fdatasync");
    return NEXT(fdatasync)(file);
}

int fsync(int file) {
    at("fsync");
    return NEXT(fsync)(file);
}
