/* The floor of reading formulas: a scanner driven by a table of character classes. It reads rows of standard input,
   skips the first word of each, and writes the place and the kind of every token of the rest, one row a line. */
#include <stdio.h>
#include <stdlib.h>
#include <string.h>

enum { OTHER, LETTER, DIGIT, QUOTE, APOSTROPHE, SIGN, SPACE, HASH };

static unsigned char class_of[256];

static void make_table(void) {
    for (int c = 'A'; c <= 'Z'; c++) class_of[c] = class_of[c + 32] = LETTER;
    for (int c = '0'; c <= '9'; c++) class_of[c] = DIGIT;
    class_of['_'] = class_of['.'] = class_of['$'] = LETTER;
    class_of['"'] = QUOTE;
    class_of['\''] = APOSTROPHE;
    class_of[' '] = SPACE;
    class_of['#'] = HASH;
    for (const char *s = "+-*/^&=<>%(){},;:![]@"; *s; s++) class_of[(unsigned char)*s] = SIGN;
}

static char *put(char *out, size_t at, int kind) {
    char digits[20];
    int n = 0;
    do digits[n++] = (char)('0' + at % 10); while (at /= 10);
    while (n) *out++ = digits[--n];
    *out++ = (char)('a' + kind);
    return out;
}

static char *scan(char *out, const unsigned char *text, size_t length) {
    size_t i = 0;
    while (i < length) {
        size_t begin = i;
        int kind = class_of[text[i++]];
        switch (kind) {
        case LETTER:
        case DIGIT:
            while (i < length && (class_of[text[i]] == LETTER || class_of[text[i]] == DIGIT)) i++;
            break;
        case QUOTE:
        case APOSTROPHE:
            while (i < length && class_of[text[i]] != kind) i++;
            if (i < length) i++;
            break;
        case HASH:
            while (i < length && class_of[text[i]] != SIGN) i++;
            break;
        case SPACE:
            continue;
        }
        out = put(out, begin, kind);
    }
    *out++ = '\n';
    return out;
}

int main(void) {
    static char line[1 << 20], out[1 << 22];
    make_table();
    while (fgets(line, sizeof line, stdin)) {
        size_t length = strlen(line);
        if (length && line[length - 1] == '\n') length--;
        char *tab = memchr(line, '\t', length);
        char *text = tab ? tab + 1 : line;
        char *end = scan(out, (unsigned char *)text, length - (size_t)(text - line));
        fwrite(out, 1, (size_t)(end - out), stdout);
    }
    return 0;
}
