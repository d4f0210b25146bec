/* The words of a command line and the amounts in them, as the floors in C read and write them. What includes this says how
   many words are told apart (WORDS). */
#include <stdint.h>
#include <stdio.h>
#include <stdlib.h>
#include <string.h>

enum { LAST_ROW = 1048576, LAST_COLUMN = 16384 };
typedef __int128 amount; /* in units of the ninth decimal */

static char *words[WORDS];
static size_t lengths[WORDS], count;

/* A number of digits alone, below a limit. */
static int read_digits(const char *s, uint64_t limit, uint64_t *to) {
    uint64_t value = 0;
    if (!*s) return 0;
    for (; *s; s++) {
        if (*s < '0' || *s > '9') return 0;
        value = value * 10 + (*s - '0');
        if (value >= limit) return 0;
    }
    return *to = value, 1;
}

static int read_index(size_t word, uint32_t *to) {
    uint64_t value;
    return read_digits(words[word], 1ull << 32, &value) && (*to = value, 1);
}

static int read_position(size_t word, int64_t *to) {
    uint64_t value;
    int minus = *words[word] == '-';
    return read_digits(words[word] + minus, (1ull << 31) + minus, &value) && (*to = minus ? -(int64_t)value : (int64_t)value, 1);
}

/* An amount, in units. */
static int amount_in(const char *s, amount *to) {
    int minus = *s == '-', decimals = 0;
    amount value = 0;
    s += minus;
    if (!*s || !strcmp(s, ".")) return 0;
    for (; *s >= '0' && *s <= '9'; s++) {
        value = value * 10 + (*s - '0');
        if (value >= 1000000000000000000) return 0;
    }
    if (*s == '.')
        for (s++; *s >= '0' && *s <= '9'; s++, decimals++) value = decimals < 9 ? value * 10 + (*s - '0') : value;
    if (*s || decimals > 9) return 0;
    for (; decimals < 9; decimals++) value *= 10;
    return *to = minus ? -value : value, 1;
}

static size_t spelled(char *to, amount value) {
    char digits[48], *end = digits + sizeof digits, *at = end;
    size_t length = 0;
    int minus = value < 0, decimals = 9;
    unsigned __int128 rest = minus ? -value : value;
    uint64_t whole = rest / 1000000000, parts = rest % 1000000000;
    while (decimals && parts % 10 == 0) parts /= 10, decimals--;
    for (int n = 0; n < decimals; n++) *--at = '0' + parts % 10, parts /= 10;
    if (decimals) *--at = '.';
    do *--at = '0' + whole % 10;
    while (whole /= 10);
    if (minus) to[length++] = '-';
    memcpy(to + length, at, end - at);
    return length + (end - at);
}

/* Splits a line at its tabs, and reads the escapes of each word. */
static int split(char *line, size_t length) {
    char *end = line + length, *at = line;
    for (count = 0; count < WORDS; count++) {
        char *tab = memchr(at, '\t', end - at), *stop = tab ? tab : end, *to;
        words[count] = at;
        *stop = 0;
        if ((to = memchr(at, '\\', stop - at))) {
            for (char *from = to; from < stop; from++) {
                if (*from != '\\') {
                    *to++ = *from;
                    continue;
                }
                switch (*++from) {
                    case '\\': *to++ = '\\'; break;
                    case 't': *to++ = '\t'; break;
                    case 'n': *to++ = '\n'; break;
                    case 'r': *to++ = '\r'; break;
                    default: return 0;
                }
            }
            *to = 0;
            lengths[count] = to - at;
        } else lengths[count] = stop - at;
        if (!tab) return count++, 1;
        at = tab + 1;
    }
    return 1;
}
