/* The library for C used badly, within what it allows: `hostile refused LINES` refuses each allocation in turn over a list of
 * lines, `hostile random SEED COUNT` makes random calls on a few rooms. It ends with 1 where something is wrong. */
#include "lurvetta.h"

#include <stdio.h>
#include <stdlib.h>
#include <string.h>

#define TEXT(text) (const uint8_t *)(text), strlen(text)

/* -Wl,--wrap: the allocation of this number fails, if it isn't 0. */
static unsigned long refuse_at, seen;
void *__real_malloc(size_t size);
void *__real_realloc(void *old, size_t size);
void *__wrap_malloc(size_t size) { return ++seen == refuse_at ? NULL : __real_malloc(size); }
void *__wrap_realloc(void *old, size_t size) { return ++seen == refuse_at ? NULL : __real_realloc(old, size); }

static lurvetta_tables tables;

static void check(int holds, const char *what, unsigned long at) {
    if (!holds) {
        printf("wrong: %s, at %lu\n", what, at);
        exit(1);
    }
}

static size_t feeds(const uint8_t *bytes, size_t count) {
    size_t found = 0;
    for (size_t i = 0; i < count; i++)
        found += bytes[i] == '\n';
    return found;
}

/* What the lines from a place on leave, by their replies. */
static size_t rest_of(lurvetta_book *book, const uint8_t *lines, size_t count, uint8_t *out, size_t size) {
    size_t length;
    check(lurvetta_run(book, lines, count, out, size, &length) == LURVETTA_OK, "the rest isn't answered", count);
    return length;
}

static int opened(lurvetta_book *book) {
    return lurvetta_open(book, &tables, TEXT("book"), TEXT("en"), TEXT("en"), TEXT("UTC"), 0);
}

/* Refuses each allocation of a run in turn: the replies are the first ones, and the others are the same when the rest is run. */
static int refused(const char *path) {
    static uint8_t lines[1 << 20], whole[1 << 22], first[1 << 22], last[1 << 22];
    FILE *file = fopen(path, "rb");
    check(file != NULL, "no list", 0);
    size_t count = fread(lines, 1, sizeof lines, file), length;
    fclose(file);
    lurvetta_book book = {0};
    check(opened(&book) == LURVETTA_OK, "no book", 0);
    check(lurvetta_run(&book, lines, count, whole, sizeof whole, &length) == LURVETTA_OK, "no replies", 0);
    lurvetta_close(&book);
    unsigned long at = 0;
    for (int done = 0; !done; lurvetta_close(&book)) {
        at += 1;
        seen = 0, refuse_at = at;
        int status = opened(&book);
        size_t told = 0, again = 0;
        if (!status)
            status = lurvetta_run(&book, lines, count, first, sizeof first, &told);
        refuse_at = 0;
        done = seen < at;
        check(done ? status == LURVETTA_OK : status == LURVETTA_OK || status == LURVETTA_NO_MEMORY, "status", at);
        if (status == LURVETTA_OK) {
            check(told == length && !memcmp(first, whole, length), "replies", at);
            continue;
        }
        if (!book.at)
            continue;
        check(lurvetta_copy(&book, first, sizeof first, &again) == LURVETTA_OK && again == told, "no copy", at);
        check(told <= length && !memcmp(first, whole, told), "the first replies", at);
        const uint8_t *from = lines;
        for (size_t left = feeds(first, told); left; left--)
            from = (uint8_t *)memchr(from, '\n', lines + count - from) + 1;
        size_t rest = rest_of(&book, from, lines + count - from, last, sizeof last);
        check(rest == length - told && !memcmp(last, whole + told, rest), "the other replies", at);
    }
    /* The tables are made anew in a room of their own: where memory runs out nothing of them is lost. */
    for (unsigned long nth = 1, done = 0; !done; nth++) {
        static lurvetta_tables other;
        seen = 0, refuse_at = nth;
        int status = lurvetta_open(&book, &other, TEXT("book"), TEXT("en"), TEXT("en"), TEXT("UTC"), 0);
        refuse_at = 0;
        done = seen < nth;
        check(done ? status == LURVETTA_OK : status == LURVETTA_NO_MEMORY, "tables", nth);
        if (other.at && !done)
            done = 1;
        lurvetta_close(&book);
    }
    printf("%lu allocations, each refused once: 0 wrong\n", at - 1);
    return 0;
}

static uint64_t state;
static uint64_t drawn(uint64_t below) {
    state ^= state << 13, state ^= state >> 7, state ^= state << 17;
    return (state >> 11) % below;
}

/* A line, whole or spoilt. */
static size_t line_in(uint8_t *line) {
    static const char *const words[] = {"add_sheet", "set_user_input", "0", "1", "-", "2", "=SUM(A1:B2)*tax", "Data", "Sheet1!A1",
        "new_defined_name", "tax", "rename_sheet_by_index", "get_sheet_markup", "duplicate_sheet", "delete_sheet", "set_language",
        "de", "fr", "set_locale", "get_cell_formula", "\\t", "\\", "\xff", "\xc3", "\xf0\x9f\x92\xa5", "'12", "1,5", "\r", "\n", ""};
    size_t count = 0;
    for (uint64_t left = drawn(7); left; left--) {
        const char *word = words[drawn(sizeof words / sizeof *words)];
        memcpy(line + count, word, strlen(word));
        count += strlen(word);
        if (left > 1 || !drawn(9))
            line[count++] = '\t';
    }
    if (count && !drawn(6))
        line[drawn(count)] = drawn(256);
    return count;
}

static int random_calls(uint64_t seed, unsigned long count) {
    static uint8_t lines[1 << 13], out[1 << 12], other[1 << 20];
    lurvetta_book rooms[3] = {{0}, {0}, {0}};
    unsigned long statuses[9] = {0};
    state = seed * 2 + 1;
    for (unsigned long at = 0; at < count; at++) {
        lurvetta_book *book = rooms + drawn(3);
        size_t room = drawn(4) ? sizeof out : drawn(40), told = 7, again = 7, given = 0;
        int status = 0, was_open = book->at != NULL;
        memset(out, 0xa5, room + 1 < sizeof out ? room + 1 : sizeof out);
        refuse_at = drawn(50) ? 0 : 1 + drawn(30), seen = 0;
        uint64_t kind = drawn(200);
        if (kind < 1)
            lurvetta_close(book), was_open = 0, status = lurvetta_copy(book, out, room, &told);
        else if (kind < 8) {
            static const char *const ids[] = {"en", "de", "UTC", "Europe/Berlin", "xx", "", "\xff"};
            uint64_t odd = drawn(3);
            const char *locale = ids[drawn(odd ? 2 : 7)], *language = ids[drawn(odd ? 2 : 7)], *zone = ids[odd ? 2 + drawn(2) : drawn(7)];
            int64_t moment = drawn(9) ? (int64_t)drawn(1ull << 40) : INT64_MAX;
            void *before = book->at;
            status = lurvetta_open(book, &tables, TEXT("b"), TEXT(locale), TEXT(language), TEXT(zone), moment);
            check(status == LURVETTA_OK ? book->at != NULL : book->at == before, "the room after open", at);
            refuse_at = 0;
            statuses[status]++;
            continue;
        } else if (kind < 20)
            status = lurvetta_copy(book, out, room, &told);
        else if (kind < 160)
            given = line_in(lines), status = lurvetta_answer(book, lines, given, out, room, &told);
        else {
            for (uint64_t left = drawn(20); left; left--)
                given += line_in(lines + given), lines[given++] = '\n';
            status = lurvetta_run(book, lines, given, out, room, &told);
        }
        refuse_at = 0;
        check(status <= LURVETTA_NOT_OPEN, "status", at);
        statuses[status]++;
        check((status == LURVETTA_NOT_OPEN) == !was_open, "an open book", at);
        if (room < sizeof out)
            check(out[room] == 0xa5, "a byte behind the room", at);
        if (status == LURVETTA_NOT_OPEN) {
            check(told == 0, "a length without a book", at);
            continue;
        }
        check(status != LURVETTA_OK || told <= room, "a reply larger than the room", at);
        check(status != LURVETTA_NO_ROOM || (told > room && (!room || out[0] == 0xa5)), "a reply without room", at);
        check(lurvetta_copy(book, other, sizeof other, &again) == LURVETTA_OK && again == told, "the copy's length", at);
        check(status != LURVETTA_OK || !memcmp(out, other, told), "the copy", at);
        check(!told || other[told - 1] == '\n', "the end of a reply", at);
        if (kind >= 20 && kind < 160 && status != LURVETTA_NO_MEMORY)
            check(feeds(other, told) == 1, "one reply", at);
        if (kind >= 160 && status != LURVETTA_NO_MEMORY)
            check(feeds(other, told) == feeds(lines, given), "a reply a line", at);
        /* Books that grew are closed, so that a call stays short. */
        if (told > 200000)
            lurvetta_close(book);
    }
    for (int i = 0; i < 3; i++)
        lurvetta_close(rooms + i);
    printf("%lu random calls: 0 wrong; statuses", count);
    for (int i = 0; i < 9; i++)
        printf(" %lu", statuses[i]);
    printf("\n");
    return 0;
}

int main(int count, char **words) {
    if (count > 2 && !strcmp(words[1], "refused"))
        return refused(words[2]);
    if (count > 3 && !strcmp(words[1], "random"))
        return random_calls(strtoull(words[2], NULL, 10), strtoul(words[3], NULL, 10));
    return 2;
}
