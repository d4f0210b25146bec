/* malloc and realloc that refuse one call, put before those of the C library by LD_PRELOAD: the one whose number, counting from 1,
   stands in REFUSE, or from that one on each where it stands as "N+". Where COUNTED names a file the number of calls goes there
   at the end. */
#define _GNU_SOURCE
#include <dlfcn.h>
#include <fcntl.h>
#include <stdlib.h>
#include <unistd.h>

static unsigned long calls, refused;
static int all_from_there;
static void *(*next_malloc)(size_t);
static void *(*next_realloc)(void *, size_t);

__attribute__((constructor)) static void begin(void) {
    const char *number = getenv("REFUSE");
    if (number) {
        char *rest;
        refused = strtoul(number, &rest, 10);
        all_from_there = *rest == '+';
    }
    next_malloc = (void *(*)(size_t))dlsym(RTLD_NEXT, "malloc");
    next_realloc = (void *(*)(void *, size_t))dlsym(RTLD_NEXT, "realloc");
    calls = 0;
}

__attribute__((destructor)) static void end(void) {
    const char *path = getenv("COUNTED");
    unsigned long counted = calls;
    int file = path ? open(path, O_WRONLY | O_CREAT | O_TRUNC, 0600) : -1;
    if (file >= 0) {
        char digits[24];
        int at = sizeof digits;
        do {
            digits[--at] = '0' + counted % 10;
            counted /= 10;
        } while (counted);
        if (write(file, digits + at, sizeof digits - at) < 0)
            _exit(99);
    }
}

static int is_refused(void) {
    calls += 1;
    return refused && (calls == refused || (all_from_there && calls > refused));
}

void *malloc(size_t size) {
    if (!next_malloc)
        next_malloc = (void *(*)(size_t))dlsym(RTLD_NEXT, "malloc");
    return is_refused() ? NULL : next_malloc(size);
}

void *realloc(void *old, size_t size) {
    if (!next_realloc)
        next_realloc = (void *(*)(void *, size_t))dlsym(RTLD_NEXT, "realloc");
    return is_refused() ? NULL : next_realloc(old, size);
}
