/* Lurvetta from C: books that are opened, asked command lines, and closed. docs/C.md says more, by example.
 *
 * What C owes, which nothing checks:
 *   - a room is all zeros, or what the last call left in it. It may be moved, and only one copy of it is used on;
 *   - a room is given to one call at a time, whatever the threads; the two rooms of lurvetta_open are different ones, and one
 *     room of tables is given to one call at a time, too. Books that share tables may otherwise be used by different threads;
 *   - no pointer is null, also where a length is 0; each length is true; memory that is written overlaps no other argument;
 *   - a call has 2 MB of stack, and isn't made from a signal handler, or after fork in a process with threads;
 *   - malloc, realloc and free are one allocator's, and malloc aligns to 16 bytes.
 * A book is never freed but by lurvetta_close, or by lurvetta_open over it. Tables are never freed: one room of them serves a
 * whole process. Texts are UTF-8, a pointer and a length; nothing is ended by a zero.
 */
#ifndef LURVETTA_H
#define LURVETTA_H

#include <stddef.h>
#include <stdint.h>

#ifdef __cplusplus
extern "C" {
#endif

/* The room of a book. Zeros are a room with no book. */
typedef struct lurvetta_book {
    void *at;
} lurvetta_book;

/* The room of the tables that books are read and shown by: locales, languages, time zones, functions. Zeros at first; the
 * first lurvetta_open fills it. */
typedef struct lurvetta_tables {
    void *at;
} lurvetta_tables;

/* What the calls answer. */
typedef enum lurvetta_status {
    LURVETTA_OK = 0,
    LURVETTA_NO_MEMORY = 1,        /* memory ran out */
    LURVETTA_NO_ROOM = 2,          /* the reply doesn't fit; lurvetta_copy gives it */
    LURVETTA_NOT_OPEN = 3,         /* the room has no book */
    LURVETTA_NOT_UTF8 = 4,         /* a text of lurvetta_open isn't UTF-8 */
    LURVETTA_INVALID_TIMEZONE = 5, /* the tables lack the time zone */
    LURVETTA_INVALID_LOCALE = 6,   /* the tables lack the locale */
    LURVETTA_INVALID_LANGUAGE = 7, /* the tables lack the language */
    LURVETTA_INVALID_MOMENT = 8    /* the moment is outside the years -9999 to 9999 */
} lurvetta_status;

/* Opens a new book with one sheet, with this name, locale, language and time zone (say "en", "en" and "UTC"), made at this
 * moment in milliseconds after the Unix epoch. A book that the room had is closed. The tables are made where there are none.
 *
 * LURVETTA_OK, or, asked for in this order: LURVETTA_NOT_UTF8, LURVETTA_INVALID_MOMENT, LURVETTA_INVALID_TIMEZONE,
 * LURVETTA_INVALID_LOCALE, LURVETTA_INVALID_LANGUAGE; LURVETTA_NO_MEMORY. After any but the first the room is as it was. */
uint8_t lurvetta_open(lurvetta_book *book, lurvetta_tables *tables, const uint8_t *name, size_t name_len, const uint8_t *locale,
                      size_t locale_len, const uint8_t *language, size_t language_len, const uint8_t *zone, size_t zone_len,
                      int64_t milliseconds);

/* Closes the book and frees it; nothing happens where the room has none. The room is zeros then. */
void lurvetta_close(lurvetta_book *book);

/* Answers one command line, which has no line feed at its end (one within it is a character like another); a line that isn't
 * UTF-8 is a bad line. The reply is "ok" with its fields, or "error" and why, and ends with a line feed.
 *
 * LURVETTA_OK: the reply stands at the front of `out`. LURVETTA_NO_ROOM: the line was answered, `out` is as it was, and
 * lurvetta_copy gives the reply. LURVETTA_NO_MEMORY: the line wasn't answered, the book is as it was, and no reply is kept.
 * LURVETTA_NOT_OPEN. `*told` is the length of the reply that is kept then, 0 where no book is open. */
uint8_t lurvetta_answer(lurvetta_book *book, const uint8_t *line, size_t line_len, uint8_t *out, size_t out_len, size_t *told);

/* Answers lines, one after another: each ends with a line feed, before which a carriage return is no part of it, and the last
 * one may end with the bytes. There is one reply a line, in their order.
 *
 * As lurvetta_answer, with all replies; but with LURVETTA_NO_MEMORY some of the first lines were answered, never all, as many
 * as there are replies, `out` is as it was, and lurvetta_copy gives these. */
uint8_t lurvetta_run(lurvetta_book *book, const uint8_t *lines, size_t lines_len, uint8_t *out, size_t out_len, size_t *told);

/* Copies the reply that is kept: that of the last lurvetta_answer or lurvetta_run, as often as it is asked to.
 *
 * LURVETTA_OK: it stands at the front of `out`. LURVETTA_NO_ROOM: it doesn't fit, and `out` is as it was. LURVETTA_NOT_OPEN.
 * `*told` is its length. */
uint8_t lurvetta_copy(lurvetta_book *book, uint8_t *out, size_t out_len, size_t *told);

#ifdef __cplusplus
}
#endif

#endif
