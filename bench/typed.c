/* What is typed into one sheet by hand in C, as a floor: answers the lines of six commands as the program does, in English
   notation. Cells stand in a hash table by their place, rows in an array, texts and styles in lists with hash tables of
   them. The sheet is number 0; there are no formulas (one that is typed ends the floor with status 2), no merged cells and
   no columns; case is told on ASCII, and a line has at most 2,000 bytes. */
#include <stdint.h>
#include <stdio.h>
#include <stdlib.h>
#include <string.h>
#include <strings.h>

enum { LAST_ROW = 1048576, LAST_COLUMN = 16384, LAST_DAY = 2958465, WORDS = 8, LONGEST = 2000, MEMOS = 256 };
enum kind { NONE, EMPTY, BOOLEAN, NUMBER, ERROR, TEXT, QUOTED, FORMULA };
enum format { GENERAL, DIGITS, ISO, AMERICAN, EUROPEAN };
typedef __int128 amount; /* in units of the ninth decimal */
struct cell { amount value; uint32_t row; uint16_t column, kind; uint32_t style; };
struct row { uint32_t style; uint8_t has_style; };
struct said { char *bytes; size_t length; };
struct list { struct said *items; uint32_t *slots, count, size; };
struct code { enum format format; uint8_t before, after, decimals, percent; }; /* how many bytes stand before and after the digits */
struct style { struct code code; size_t code_length; uint8_t quoted, bold; };
struct memo { uint32_t style, changed; uint8_t known, quoted; char code[24]; };
struct typed { enum kind kind; amount value; const char *text; size_t length; char code[24]; };

static struct cell *cells;
static size_t room, used;
static struct row *rows;
static struct list texts, style_words;
static struct style *styles;
static size_t style_room;
static struct memo memos[MEMOS];
static char *words[WORDS];
static size_t lengths[WORDS], count;
static char *reply;
static size_t at, reply_room;

static const char *errors[] = {"#REF!", "#NAME?", "#VALUE!", "#DIV/0!", "#N/A", "#NUM!", "#N/IMPL!", "#SPILL!", "#CALC!", "#CIRC!", "#ERROR!", "#NULL!"};
static const char *booleans[] = {"FALSE", "TRUE"};

/* Room for so many more bytes of the reply. */
static void need(size_t more) {
    if (at + more > reply_room) reply = realloc(reply, reply_room = 2 * (at + more));
}

static void put(const char *text, size_t length) {
    need(2 * length);
    memcpy(reply + at, text, length);
    at += length;
}

/* A text with its escapes. */
static void put_escaped(const char *text, size_t length) {
    static const char letters[] = {['\\'] = '\\', ['\t'] = 't', ['\n'] = 'n', ['\r'] = 'r'};
    need(2 * length);
    for (size_t n = 0; n < length; n++) {
        uint8_t c = text[n];
        if (c < sizeof letters && letters[c]) reply[at++] = '\\', c = letters[c];
        reply[at++] = c;
    }
}

static void answered(const char *text) { at = 0, put(text, strlen(text)); }

static size_t slot_of(uint32_t row, uint32_t column) {
    size_t place = ((row * 16384ull + column) * 0x9E3779B97F4A7C15ull >> 20) & (room - 1);
    while (cells[place].row && (cells[place].row != row || cells[place].column != (uint16_t)column)) place = (place + 1) & (room - 1);
    return place;
}

static struct cell *made(uint32_t row, uint32_t column) {
    size_t place = slot_of(row, column);
    if (cells[place].row) return &cells[place];
    if (++used * 2 > room) {
        struct cell *before = cells;
        size_t many = room;
        room *= 2, cells = calloc(room, sizeof *cells);
        for (size_t n = 0; n < many; n++)
            if (before[n].row) cells[slot_of(before[n].row, before[n].column)] = before[n];
        free(before);
        place = slot_of(row, column);
    }
    cells[place].row = row, cells[place].column = column;
    return &cells[place];
}

/* Where a text stands among the slots of a list, or where it is to stand. */
static uint32_t *slot_said(struct list *list, const char *text, size_t length) {
    uint64_t hash = 0x9E3779B97F4A7C15ull ^ length, part = 0;
    size_t n = 0;
    for (; n + 8 <= length; n += 8) {
        memcpy(&part, text + n, 8);
        hash = (hash ^ part) * 0xff51afd7ed558ccdull, hash ^= hash >> 32;
    }
    part = 0, memcpy(&part, text + n, length - n);
    hash = (hash ^ part) * 0xff51afd7ed558ccdull;
    uint32_t place = (hash ^ hash >> 29) & (list->size - 1);
    while (list->slots[place]) {
        struct said *item = &list->items[list->slots[place] - 1];
        if (item->length == length && !memcmp(item->bytes, text, length)) break;
        place = (place + 1) & (list->size - 1);
    }
    return &list->slots[place];
}

/* The number of a text in a list, which is put at the end where it is new. */
static uint32_t number_in(struct list *list, const char *text, size_t length) {
    uint32_t *slot = slot_said(list, text, length);
    if (*slot) return *slot - 1;
    if (list->count * 2 >= list->size) {
        list->size *= 2;
        list->items = realloc(list->items, list->size * sizeof *list->items);
        free(list->slots), list->slots = calloc(list->size, sizeof *list->slots);
        for (uint32_t n = 0; n < list->count; n++) *slot_said(list, list->items[n].bytes, list->items[n].length) = n + 1;
        slot = slot_said(list, text, length);
    }
    list->items[list->count].bytes = memcpy(malloc(length + 1), text, length);
    list->items[list->count].length = length;
    *slot = ++list->count;
    return list->count - 1;
}

static void list_made(struct list *list) {
    list->size = 1024;
    list->slots = calloc(list->size, sizeof *list->slots), list->items = malloc(list->size * sizeof *list->items);
}

static int is_digit(char c) { return c >= '0' && c <= '9'; }

/* The length of the dollar or the euro at the front. */
static size_t currency(const char *s, const char *end) { return s < end && *s == '$' ? 1 : end - s >= 3 && !memcmp(s, "\xe2\x82\xac", 3) ? 3 : 0; }

static int is_same(const char *text, size_t length, const char *other) { return length == strlen(other) && !memcmp(text, other, length); }

/* One to four characters, none a digit, a blank or a mark of numbers and formats. */
static int is_symbol(const char *text, size_t length) {
    size_t characters = 0;
    for (size_t n = 0; n < length; n++) {
        if (memchr("0123456789 \t\n\r#,.%\"+-='", text[n], 24)) return 0;
        characters += (text[n] & 0xC0) != 0x80;
    }
    return characters >= 1 && characters <= 4;
}

static struct code code_read(const char *text, size_t length) {
    struct code code = {GENERAL};
    const char *end = text + length, *digits = memchr(text, '#', length);
    if (is_same(text, length, "yyyy-mm-dd")) return code.format = ISO, code;
    if (is_same(text, length, "m/d/yyyy")) return code.format = AMERICAN, code;
    if (is_same(text, length, "dd/mm/yyyy")) return code.format = EUROPEAN, code;
    if (!digits || end - digits < 5 || memcmp(digits, "#,##0", 5)) return code;
    const char *after = digits + 5;
    int decimals = end - after >= 3 && !memcmp(after, ".00", 3);
    after += 3 * decimals;
    int percent = end - after == 1 && *after == '%', before = digits > text;
    if (before ? after < end || !is_symbol(text, digits - text) : after < end && !percent && !is_symbol(after, end - after)) return code;
    return (struct code){DIGITS, digits - text, end - after, decimals, percent};
}

/* The number of a style whose words, code, flags and fill, stand with tabs between. */
static uint32_t style_number(const char *text, size_t length, size_t code_length) {
    uint32_t number = number_in(&style_words, text, length);
    if (number >= style_room) styles = realloc(styles, (style_room = 2 * style_room + 64) * sizeof *styles);
    styles[number] = (struct style){code_read(text, code_length), code_length, text[code_length + 1] == '1', text[code_length + 3] == '1'};
    return number;
}

/* The style with another code, where one is given, and another quote flag. */
static uint32_t style_with(uint32_t number, const char *code, int quoted) {
    if (!*code && styles[number].quoted == quoted) return number;
    size_t length = strlen(code), rest = style_words.items[number].length - styles[number].code_length;
    uint32_t hash = number * 31 + quoted;
    for (size_t n = 0; n < length; n++) hash = hash * 31 + code[n];
    struct memo *memo = &memos[(hash ^ hash >> 8) % MEMOS];
    if (memo->known && memo->style == number && memo->quoted == quoted && !strcmp(memo->code, code)) return memo->changed;
    static char text[2 * LONGEST + 100];
    if (!length) length = styles[number].code_length, code = style_words.items[number].bytes;
    memcpy(text, code, length);
    memcpy(text + length, style_words.items[number].bytes + styles[number].code_length, rest);
    text[length + 1] = '0' + quoted;
    uint32_t changed = style_number(text, length + rest, length);
    if (code != style_words.items[number].bytes) strcpy(memo->code, code);
    else *memo->code = 0;
    return memo->known = 1, memo->style = number, memo->quoted = quoted, memo->changed = changed;
}

/* A number of digits alone, below a limit. */
static int read_digits(const char *s, uint64_t limit, uint64_t *to) {
    uint64_t value = 0;
    if (!*s) return 0;
    for (; *s; s++) {
        if (!is_digit(*s)) return 0;
        value = value * 10 + (*s - '0');
        if (value >= limit) return 0;
    }
    return *to = value, 1;
}

static int read_index(size_t word, uint32_t *to) {
    uint64_t value;
    return read_digits(words[word], 1ull << 32, &value) && (*to = value, 1);
}

static int read_position(size_t word, int64_t *to) {
    uint64_t value;
    int minus = *words[word] == '-';
    return read_digits(words[word] + minus, (1ull << 31) + minus, &value) && (*to = minus ? -(int64_t)value : (int64_t)value, 1);
}

static int read_flag(size_t word, const char *no, const char *yes, int *to) {
    return *to = !strcmp(words[word], yes), *to || !strcmp(words[word], no);
}

/* A number without a sign as one types it, with the code that it brings. */
static int unsigned_typed(const char *s, const char *end, amount *to, char *code) {
    const amount most = (amount)1000000000000000000 * 1000000000;
    const char *before = s, *digits = s += currency(s, end), *after;
    amount value = 0;
    int grouped = 0, whole, decimals = 0, percent;
    for (; s < end && is_digit(*s); s++) value = value < most ? value * 10 + (*s - '0') : value;
    whole = s - digits;
    if (whole >= 1 && whole <= 3)
        for (; end - s >= 4 && *s == ',' && is_digit(s[1]) && is_digit(s[2]) && is_digit(s[3]); s += 4, grouped = 1)
            value = value < most ? value * 1000 + (s[1] - '0') * 100 + (s[2] - '0') * 10 + (s[3] - '0') : value;
    if (s < end && *s == '.')
        for (s++; s < end && is_digit(*s) && decimals < 10; s++, decimals++) value = value < most ? value * 10 + (*s - '0') : value;
    if (!whole && !decimals) return 0;
    percent = digits == before && s < end && *s == '%';
    after = s, s += percent ? 1 : digits == before ? currency(s, end) : 0;
    if (s < end || value >= most || decimals > (percent ? 7 : 9)) return 0;
    for (int n = decimals; n < (percent ? 7 : 9); n++) value *= 10;
    if (value >= most) return 0;
    *to = value;
    if (!grouped && digits == before && after == end) return *code = 0, 1;
    memcpy(code, before, digits - before), code += digits - before;
    memcpy(code, "#,##0.00", 8), code += decimals ? 8 : 5;
    memcpy(code, after, end - after), code[end - after] = 0;
    return 1;
}

static int64_t day_number(int64_t year, int64_t month, int64_t day) {
    year -= month <= 2;
    int64_t of_year = (153 * (month > 2 ? month - 3 : month + 9) + 2) / 5 + day - 1;
    return year * 365 + year / 4 - year / 100 + year / 400 + of_year - 693899;
}

/* The number of a day of the calendar from the first to the last, or 0. */
static int64_t day_of(int year, int month, int day) {
    static const int8_t lengths_of[] = {0, 31, 28, 31, 30, 31, 30, 31, 31, 30, 31, 30, 31};
    if (month < 1 || month > 12 || day < 1) return 0;
    int leap = month == 2 && year % 4 == 0 && (year % 100 || year % 400 == 0);
    if (day > lengths_of[month] + leap) return 0;
    int64_t number = day_number(year, month, day);
    return number >= 1 && number <= LAST_DAY ? number : 0;
}

static void day_shown(int64_t number, int *year, int *month, int *day) {
    int64_t from_march = number + 693899, era = from_march / 146097, in_era = from_march % 146097;
    int64_t of_era = (in_era - in_era / 1460 + in_era / 36524 - in_era / 146096) / 365;
    int64_t in_year = in_era - (365 * of_era + of_era / 4 - of_era / 100), of_year = (5 * in_year + 2) / 153;
    *day = in_year - (153 * of_year + 2) / 5 + 1;
    *month = of_year < 10 ? of_year + 3 : of_year - 9;
    *year = of_era + era * 400 + (*month <= 2);
}

static int field(const char **s, const char *end, int most, int *to) {
    int length = 0;
    for (*to = 0; length < most && *s < end && is_digit(**s); length++) *to = *to * 10 + (*(*s)++ - '0');
    return length;
}

/* A date as one types it, and its code. */
static int64_t date_typed(const char *s, const char *end, char *code) {
    int a, b, c, first;
    if (end - s < 8 || end - s > 10 || !is_digit(*s)) return 0;
    first = field(&s, end, 4, &a);
    if (first == 4) {
        if (*s++ != '-' || field(&s, end, 2, &b) != 2 || s == end || *s++ != '-' || field(&s, end, 2, &c) != 2 || s < end) return 0;
        strcpy(code, "yyyy-mm-dd");
        return day_of(a, b, c);
    }
    if (first > 2 || *s++ != '/' || !field(&s, end, 2, &b) || s == end || *s++ != '/' || field(&s, end, 4, &c) != 4 || s < end) return 0;
    strcpy(code, "m/d/yyyy");
    return day_of(c, a, b);
}

/* What a text is that is typed. */
static void classify(const char *text, size_t length, struct typed *to) {
    const char *end = text + length;
    char first = length ? *text : 0;
    int64_t day;
    to->kind = TEXT, to->text = text, to->length = length, *to->code = 0;
    if (!length) to->kind = EMPTY;
    else if (first == '\'') to->kind = QUOTED, to->text++, to->length--;
    else if (first == '=' && length > 1) to->kind = FORMULA;
    else if ((first == '+' || first == '-') && length > 1) {
        if (!unsigned_typed(text + 1, end, &to->value, to->code)) to->kind = FORMULA;
        else to->kind = NUMBER, to->value = first == '-' ? -to->value : to->value;
    } else if (is_digit(first) || first == '.' || currency(text, end)) {
        if (unsigned_typed(text, end, &to->value, to->code)) to->kind = NUMBER;
        else if ((day = date_typed(text, end, to->code))) to->kind = NUMBER, to->value = (amount)day * 1000000000;
        else *to->code = 0;
    } else if (first == '#') {
        for (size_t n = 0; n < sizeof errors / sizeof *errors; n++)
            if (length == strlen(errors[n]) && !strncasecmp(text, errors[n], length)) to->kind = ERROR, to->value = n;
    } else
        for (size_t n = 0; n < 2; n++)
            if (length == strlen(booleans[n]) && !strncasecmp(text, booleans[n], length)) to->kind = BOOLEAN, to->value = n;
}

static size_t spelled(char *to, amount value) {
    char digits[48], *end = digits + sizeof digits, *from = end;
    size_t length = 0;
    int minus = value < 0, decimals = 9;
    unsigned __int128 rest = minus ? -value : value;
    uint64_t whole = rest / 1000000000, parts = rest % 1000000000;
    while (decimals && parts % 10 == 0) parts /= 10, decimals--;
    for (int n = 0; n < decimals; n++) *--from = '0' + parts % 10, parts /= 10;
    if (decimals) *--from = '.';
    do *--from = '0' + whole % 10;
    while (whole /= 10);
    if (minus) to[length++] = '-';
    memcpy(to + length, from, end - from);
    return length + (end - from);
}

/* A day by a date's code, or nothing where the amount is none or the code is none of dates. */
static size_t date_spelled(char *to, amount value, enum format format) {
    int year, month, day;
    if (format < ISO || value % 1000000000 || value < 1000000000 || value > (amount)LAST_DAY * 1000000000) return 0;
    day_shown(value / 1000000000, &year, &month, &day);
    char *from = to;
    int fields[] = {format == ISO ? year : format == AMERICAN ? month : day, format == AMERICAN ? day : month, format == ISO ? day : year};
    for (int n = 0; n < 3; n++) {
        if (n) *to++ = format == ISO ? '-' : '/';
        int many = n == (format == ISO ? 0 : 2) ? 4 : format == AMERICAN && fields[n] < 10 ? 1 : 2;
        for (int k = many, rest = fields[n]; k--; rest /= 10) to[k] = '0' + rest % 10;
        to += many;
    }
    return to - from;
}

/* An amount by a style's code. */
static size_t formatted(char *to, amount value, uint32_t style) {
    struct code code = styles[style].code;
    size_t length = date_spelled(to, value, code.format);
    if (length) return length;
    if (code.format != DIGITS) return spelled(to, value);
    int minus = value < 0;
    unsigned __int128 step = code.decimals ? code.percent ? 100000 : 10000000 : code.percent ? 10000000 : 1000000000;
    unsigned __int128 places = ((minus ? -value : value) + step / 2) / step;
    char digits[64], *end = digits + sizeof digits, *from = end;
    unsigned __int128 whole = places;
    if (code.decimals) {
        *--from = '0' + places % 10, *--from = '0' + places / 10 % 10, *--from = '.';
        whole = places / 100;
    }
    int n = 0;
    do {
        if (n && n % 3 == 0) *--from = ',';
        *--from = '0' + (int)(whole % 10), n++;
    } while (whole /= 10);
    const char *text = style_words.items[style].bytes;
    if (minus && places) to[length++] = '-';
    memcpy(to + length, text, code.before), length += code.before;
    memcpy(to + length, from, end - from), length += end - from;
    memcpy(to + length, text + styles[style].code_length - code.after, code.after);
    return length + code.after;
}

/* What a cell shows by its format. */
static void show_formatted(const struct cell *cell) {
    need(100 + 8 * LONGEST);
    if (cell->kind == NUMBER) at += formatted(reply + at, cell->value, cell->style);
    else if (cell->kind == BOOLEAN) put(booleans[cell->value], 5 - cell->value);
    else if (cell->kind == ERROR) put(errors[cell->value], strlen(errors[cell->value]));
    else if (cell->kind == TEXT) put_escaped(texts.items[cell->value].bytes, texts.items[cell->value].length);
}

/* What a cell shows so that it is the same when it is typed again. */
static void show_content(const struct cell *cell) {
    struct typed again;
    if (cell->kind == NUMBER) {
        need(100);
        size_t length = date_spelled(reply + at, cell->value, styles[cell->style].code.format);
        if (length && (classify(reply + at, length, &again), again.kind == NUMBER && again.value == cell->value)) at += length;
        else at += spelled(reply + at, cell->value);
    } else if (cell->kind == TEXT) {
        struct said *text = &texts.items[cell->value];
        classify(text->bytes, text->length, &again);
        if (again.kind != TEXT) put("'", 1);
        put_escaped(text->bytes, text->length);
    } else show_formatted(cell);
}

static int is(const char *name, size_t length, size_t wanted) { return count == wanted && lengths[0] == length && !memcmp(words[0], name, length); }

#define IS(name, wanted) is(name, sizeof name - 1, wanted)

/* The cell at the place of a line; none and a reply where there is none. */
static struct cell *place_read(int writes) {
    uint32_t sheet;
    int64_t row, column;
    static struct cell nothing;
    if (!read_index(1, &sheet) || !read_position(2, &row) || !read_position(3, &column)) return answered("error\tBadLine"), NULL;
    if (sheet) return answered("error\tInvalidSheet"), NULL;
    int is_row = row >= 1 && row <= LAST_ROW, is_column = column >= 1 && column <= LAST_COLUMN;
    if (!writes) return is_row && is_column ? &cells[slot_of(row, column)] : &nothing;
    if (!is_row) return answered("error\tInvalidRow"), NULL;
    if (!is_column) return answered("error\tInvalidColumn"), NULL;
    return made(row, column);
}

/* The style of a cell, or the one that a cell would get that a line names and that isn't there. */
static uint32_t style_at(const struct cell *cell) {
    int64_t row;
    if (cell->row) return cell->style;
    return read_position(2, &row) && row >= 1 && row <= LAST_ROW && rows[row].has_style ? rows[row].style : 0;
}

static void write_typed(void) {
    struct cell *cell = place_read(1);
    struct typed typed;
    if (!cell) return;
    if (cell->kind == NONE) cell->style = style_at(&(struct cell){0});
    classify(words[4], lengths[4], &typed);
    if (typed.kind == FORMULA) exit(2);
    if (typed.kind != EMPTY) {
        int keeps = *typed.code == 'y' || *typed.code == 'm';
        if (keeps && styles[cell->style].code.format >= ISO) *typed.code = 0;
        cell->style = style_with(cell->style, typed.code, typed.kind == QUOTED);
    }
    cell->kind = typed.kind == QUOTED ? TEXT : typed.kind;
    cell->value = cell->kind == TEXT ? number_in(&texts, typed.text, typed.length) : typed.value;
    answered("ok");
}

/* The cells of the sheet, by rows, up to the last row and the last column that hold one. */
static void show_markup(void) {
    uint32_t sheet, last_row = 1, last_column = 1;
    if (!read_index(1, &sheet)) return answered("error\tBadLine");
    if (sheet) return answered("error\tInvalidSheet");
    for (size_t n = 0; n < room; n++) {
        if (cells[n].row > last_row) last_row = cells[n].row;
        if (cells[n].row && cells[n].column > last_column) last_column = cells[n].column;
    }
    answered("ok\t");
    for (uint32_t row = 1; row <= last_row; row++)
        for (uint32_t column = 1; column <= last_column; column++) {
            struct cell *cell = &cells[slot_of(row, column)];
            int bold = styles[cell->row ? cell->style : rows[row].has_style ? rows[row].style : 0].bold;
            if (column > 1) put("|", 1);
            else if (row > 1) put("\\n", 2);
            if (bold) put("**", 2);
            show_formatted(cell);
            if (bold) put("**", 2);
        }
}

/* Sets a style, whose words are kept with tabs between, for a row. */
static void write_row_style(void) {
    static char text[2 * LONGEST + 100];
    int quoted, bold;
    uint32_t sheet;
    int64_t row;
    size_t length = 0;
    if (!read_flag(4, "0", "1", &quoted) || !read_flag(5, "0", "1", &bold)) return answered("error\tBadLine");
    if (!read_index(1, &sheet) || !read_position(2, &row)) return answered("error\tBadLine");
    if (sheet) return answered("error\tInvalidSheet");
    if (row < 1 || row > LAST_ROW) return answered("error\tInvalidRow");
    for (size_t n = 3; n < 7; n++) memcpy(text + length, words[n], lengths[n]), length += lengths[n], text[length++] = '\t';
    rows[row].style = style_number(text, length - 1, lengths[3]), rows[row].has_style = 1;
    answered("ok");
}

static void answer(void) {
    struct cell *cell;
    if (IS("set_user_input", 5)) return write_typed();
    if (IS("get_localized_cell_content", 4)) {
        if ((cell = place_read(0))) answered("ok\t"), show_content(cell);
    } else if (IS("get_formatted_cell_value", 4)) {
        if ((cell = place_read(0))) answered("ok\t"), show_formatted(cell);
    } else if (IS("get_cell_style_index", 4)) {
        if ((cell = place_read(0))) answered("ok\t"), need(20), at += sprintf(reply + at, "%u", style_at(cell));
    } else if (IS("get_sheet_markup", 2)) show_markup();
    else if (IS("set_row_style", 7)) write_row_style();
    else answered("error\tBadLine");
}

/* Splits a line at its tabs, and reads the escapes of each word. */
static int split(char *line, size_t length) {
    char *end = line + length, *from = line;
    for (count = 0; count < WORDS; count++) {
        char *tab = memchr(from, '\t', end - from), *stop = tab ? tab : end, *to;
        words[count] = from;
        *stop = 0;
        if ((to = memchr(from, '\\', stop - from))) {
            for (char *next = to; next < stop; next++) {
                if (*next != '\\') {
                    *to++ = *next;
                    continue;
                }
                switch (*++next) {
                    case '\\': *to++ = '\\'; break;
                    case 't': *to++ = '\t'; break;
                    case 'n': *to++ = '\n'; break;
                    case 'r': *to++ = '\r'; break;
                    default: return 0;
                }
            }
            *to = 0;
            lengths[count] = to - from;
        } else lengths[count] = stop - from;
        if (!tab) return count++, 1;
        from = tab + 1;
    }
    return 1;
}

int main(void) {
    char *line = NULL;
    size_t size = 0;
    ssize_t length;
    room = 1024, cells = calloc(room, sizeof *cells);
    rows = calloc(LAST_ROW + 1, sizeof *rows);
    list_made(&texts), list_made(&style_words);
    style_number("General\t0\t0\t-", 13, 7);
    while ((length = getline(&line, &size, stdin)) > 0) {
        if (length > LONGEST) return 1;
        if (line[length - 1] == '\n') length -= 1 + (length > 1 && line[length - 2] == '\r');
        if (split(line, length)) answer();
        else answered("error\tBadLine");
        put("\n", 1);
        fwrite(reply, 1, at, stdout);
    }
    return 0;
}
