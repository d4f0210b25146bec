/* Answers standard input through the library for C: `lines run` in one call, `lines answer` a line a call, into a room of so
 * many bytes as the second word says. With further words ROUNDS the input is answered so often, each time on a new book, the
 * replies of the last are written, and the nanoseconds of processor time that the least round took go to standard error. */
#include "lurvetta.h"

#include <stdio.h>
#include <stdlib.h>
#include <string.h>
#include <time.h>

#define TEXT(text) (const uint8_t *)(text), strlen(text)

static lurvetta_tables tables;
static uint8_t *kept;
static size_t used, size;

static void keep(const uint8_t *bytes, size_t count) {
    if (used + count > size)
        kept = realloc(kept, size = 2 * (used + count));
    memcpy(kept + used, bytes, count);
    used += count;
}

static void give_up(int status) {
    fprintf(stderr, "status %d\n", status);
    exit(status);
}

/* Keeps the reply of a call, which stands in `room` or waits. */
static void take(lurvetta_book *book, int status, uint8_t *room, size_t length) {
    if (status == LURVETTA_NO_ROOM) {
        uint8_t *large = malloc(length);
        status = lurvetta_copy(book, large, length, &length);
        keep(large, length);
        free(large);
    } else if (status == LURVETTA_OK)
        keep(room, length);
    if (status)
        give_up(status);
}

static void answer_each(lurvetta_book *book, const uint8_t *at, const uint8_t *end, uint8_t *room, size_t room_size) {
    while (at < end) {
        const uint8_t *feed = memchr(at, '\n', end - at), *stop = feed ? feed : end;
        size_t count = stop - at, length;
        if (feed && count && stop[-1] == '\r')
            count -= 1;
        int status = lurvetta_answer(book, at, count, room, room_size, &length);
        take(book, status, room, length);
        at = feed ? stop + 1 : end;
    }
}

int main(int count, char **words) {
    size_t given = 0, most = 1 << 16, room_size = count > 2 ? strtoul(words[2], NULL, 10) : 1 << 16;
    uint8_t *input = malloc(most), *room = malloc(room_size + 1);
    for (size_t got; (got = fread(input + given, 1, most - given, stdin)) > 0;)
        if ((given += got) == most)
            input = realloc(input, most *= 2);
    long rounds = count > 3 ? strtol(words[3], NULL, 10) : 1, least = 0;
    for (long round = 0; round < rounds; round++) {
        lurvetta_book book = {0};
        int status = lurvetta_open(&book, &tables, TEXT("workbook"), TEXT("en"), TEXT("en"), TEXT("UTC"), 0);
        if (status)
            give_up(status);
        used = 0;
        struct timespec begun, ended;
        clock_gettime(CLOCK_PROCESS_CPUTIME_ID, &begun);
        if (!strcmp(words[1], "run")) {
            size_t length;
            status = lurvetta_run(&book, input, given, room, room_size, &length);
            take(&book, status, room, length);
        } else
            answer_each(&book, input, input + given, room, room_size);
        clock_gettime(CLOCK_PROCESS_CPUTIME_ID, &ended);
        long took = (ended.tv_sec - begun.tv_sec) * 1000000000L + (ended.tv_nsec - begun.tv_nsec);
        least = !least || took < least ? took : least;
        lurvetta_close(&book);
    }
    fwrite(kept, 1, used, stdout);
    if (count > 3)
        fprintf(stderr, "%ld\n", least);
    free(kept);
    free(input);
    free(room);
    return 0;
}
