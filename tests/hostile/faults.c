/* read and write that fail once, put before those of the C library by LD_PRELOAD. On standard input and output each call takes at
   most PIECE bytes; the read number FAIL_READ and the write number FAIL_WRITE fail with EIO, and the write number NOTHING takes
   nothing. Numbers count from 1. */
#define _GNU_SOURCE
#include <dlfcn.h>
#include <errno.h>
#include <stdlib.h>
#include <unistd.h>

static unsigned long piece, fail_read, fail_write, nothing, reads, writes;

static unsigned long number(const char *name) {
    const char *word = getenv(name);
    return word ? strtoul(word, NULL, 10) : 0;
}

__attribute__((constructor)) static void begin(void) {
    piece = number("PIECE");
    fail_read = number("FAIL_READ");
    fail_write = number("FAIL_WRITE");
    nothing = number("NOTHING");
}

static size_t at_most(size_t size) {
    return piece && piece < size ? piece : size;
}

ssize_t read(int file, void *buffer, size_t size) {
    ssize_t (*next)(int, void *, size_t) = (ssize_t (*)(int, void *, size_t))dlsym(RTLD_NEXT, "read");
    if (file != 0)
        return next(file, buffer, size);
    if (++reads == fail_read) {
        errno = EIO;
        return -1;
    }
    return next(file, buffer, at_most(size));
}

ssize_t write(int file, const void *buffer, size_t size) {
    ssize_t (*next)(int, const void *, size_t) = (ssize_t (*)(int, const void *, size_t))dlsym(RTLD_NEXT, "write");
    if (file != 1)
        return next(file, buffer, size);
    if (++writes == fail_write) {
        errno = EIO;
        return -1;
    }
    return writes == nothing ? 0 : next(file, buffer, at_most(size));
}

ssize_t __write(int file, const void *buffer, size_t size) {
    return write(file, buffer, size);
}
