/* The values, styles and row heights of one sheet by hand in C, as a floor: answers the lines of seven commands as the
   program does. Cells stand in a hash table by their place, rows in an array, styles in a list with a hash table of their
   words. Each word is read as the program reads it, and refused where it is no such word; the sheet is number 0, there are
   no merged cells, no formulas and no columns, and a line has at most 2,000 bytes. */
enum { WORDS = 8, LONGEST = 2000 };
#include "words.h"

enum kind { NONE, EMPTY, BOOLEAN, NUMBER };
struct cell { amount value; uint32_t row; uint16_t column, kind; uint32_t style; };
struct row { uint32_t height, style; uint8_t has_height, has_style; };
struct style { char *words; size_t length; };

static struct cell *cells;
static size_t room, used;
static struct row *rows;
static struct style *styles;
static uint32_t style_count, style_slots, *slots;
static char reply[2 * LONGEST + 100];

static size_t slot_of(uint32_t row, uint32_t column) {
    size_t place = ((row * 16384ull + column) * 0x9E3779B97F4A7C15ull >> 20) & (room - 1);
    while (cells[place].row && (cells[place].row != row || cells[place].column != (uint16_t)column)) place = (place + 1) & (room - 1);
    return place;
}

static struct cell *made(uint32_t row, uint32_t column) {
    size_t place = slot_of(row, column);
    if (cells[place].row) return &cells[place];
    if (++used * 2 > room) {
        struct cell *before = cells;
        size_t many = room;
        room *= 2, cells = calloc(room, sizeof *cells);
        for (size_t n = 0; n < many; n++)
            if (before[n].row) cells[slot_of(before[n].row, before[n].column)] = before[n];
        free(before);
        place = slot_of(row, column);
    }
    cells[place].row = row, cells[place].column = column;
    return &cells[place];
}

/* Where the words of a style stand among the slots, or where they are to stand. */
static uint32_t *slot_said(const char *text, size_t length) {
    uint64_t hash = 0x9E3779B97F4A7C15ull ^ length;
    for (size_t n = 0; n < length; n++) hash = (hash ^ (uint8_t)text[n]) * 0x100000001B3ull;
    uint32_t at = (hash ^ hash >> 29) & (style_slots - 1);
    while (slots[at] && (styles[slots[at] - 1].length != length || memcmp(styles[slots[at] - 1].words, text, length))) at = (at + 1) & (style_slots - 1);
    return &slots[at];
}

/* The number of a style, which is put at the end where it is new. */
static uint32_t style_number(const char *text, size_t length) {
    uint32_t *slot = slot_said(text, length);
    if (*slot) return *slot - 1;
    if (style_count * 2 >= style_slots) {
        style_slots *= 2;
        styles = realloc(styles, style_slots * sizeof *styles);
        free(slots), slots = calloc(style_slots, sizeof *slots);
        for (uint32_t n = 0; n < style_count; n++) *slot_said(styles[n].words, styles[n].length) = n + 1;
        slot = slot_said(text, length);
    }
    styles[style_count].words = memcpy(malloc(length), text, length);
    styles[style_count].length = length;
    *slot = ++style_count;
    return style_count - 1;
}

/* The words of a style as its replies have them: code, flags and fill, with tabs between and escapes in them. */
static uint32_t style_said(size_t first) {
    static char text[2 * LONGEST + 100];
    size_t length = 0;
    for (size_t n = first; n < first + 4; n++) {
        for (size_t k = 0; k < lengths[n]; k++) {
            static const char plain[] = "\\\t\n\r", letters[] = "\\tnr";
            const char *found = words[n][k] ? strchr(plain, words[n][k]) : NULL;
            if (found) text[length++] = '\\';
            text[length++] = found ? letters[found - plain] : words[n][k];
        }
        text[length++] = '\t';
    }
    return style_number(text, length - 1);
}

static int read_amount(size_t word, amount *to) { return amount_in(words[word], to); }

static int read_flag(size_t word, const char *no, const char *yes, int *to) {
    return *to = !strcmp(words[word], yes), *to || !strcmp(words[word], no);
}

static size_t said(const char *text) { return strlen(strcpy(reply, text)); }

static size_t value_said(const struct cell *cell) {
    if (cell->kind == NUMBER) {
        size_t length = said("ok\tnumber\t");
        return length + spelled(reply + length, cell->value);
    }
    return said(cell->kind == BOOLEAN ? cell->value ? "ok\tboolean\ttrue" : "ok\tboolean\tfalse" : "ok\tnone");
}

static size_t style_told(uint32_t number) {
    size_t length = said("ok\t");
    memcpy(reply + length, styles[number].words, styles[number].length);
    return length + styles[number].length;
}

static int is(const char *name, size_t length, size_t wanted) { return count == wanted && lengths[0] == length && !memcmp(words[0], name, length); }

#define IS(name, wanted) is(name, sizeof name - 1, wanted)

/* Writes or reads a cell. */
static size_t on_cell(enum kind kind, amount value, int reads) {
    uint32_t sheet;
    int64_t row, column;
    if (!read_index(1, &sheet) || !read_position(2, &row) || !read_position(3, &column)) return said("error\tBadLine");
    if (sheet) return said("error\tInvalidSheet");
    int is_row = row >= 1 && row <= LAST_ROW, is_column = column >= 1 && column <= LAST_COLUMN;
    if (reads) return is_row && is_column ? value_said(&cells[slot_of(row, column)]) : said("ok\tnone");
    if (!is_row) return said("error\tInvalidRow");
    if (!is_column) return said("error\tInvalidColumn");
    struct cell *cell = made(row, column);
    if (cell->kind == NONE) cell->style = rows[row].has_style ? rows[row].style : 0;
    cell->kind = kind, cell->value = value;
    return said("ok");
}

/* The row of a line, which begins with a sheet and a row. */
static struct row *row_of(void) {
    uint32_t sheet;
    int64_t row;
    if (!read_index(1, &sheet) || !read_position(2, &row)) return said("error\tBadLine"), NULL;
    if (sheet) return said("error\tInvalidSheet"), NULL;
    if (row < 1 || row > LAST_ROW) return said("error\tInvalidRow"), NULL;
    return &rows[row];
}

static size_t answer(void) {
    amount value = 0;
    int quoted, bold, truth = 0;
    uint32_t height;
    struct row *row;
    if (IS("update_cell_with_number", 5)) return read_amount(4, &value) ? on_cell(NUMBER, value, 0) : said("error\tBadLine");
    if (IS("update_cell_with_bool", 5)) return read_flag(4, "false", "true", &truth) ? on_cell(BOOLEAN, truth, 0) : said("error\tBadLine");
    if (IS("get_cell_value_by_index", 4)) return on_cell(NONE, 0, 1);
    if (IS("set_row_height", 4)) {
        if (!read_index(3, &height)) return said("error\tBadLine");
        if (!(row = row_of())) return strlen(reply);
        row->height = height, row->has_height = 1;
        return said("ok");
    }
    if (IS("get_row_height", 3)) {
        if (!(row = row_of())) return strlen(reply);
        return sprintf(reply, "ok\t%u", row->has_height ? row->height : 2800);
    }
    if (IS("set_row_style", 7)) {
        if (!read_flag(4, "0", "1", &quoted) || !read_flag(5, "0", "1", &bold)) return said("error\tBadLine");
        if (!(row = row_of())) return strlen(reply);
        row->style = style_said(3), row->has_style = 1;
        return said("ok");
    }
    if (IS("get_row_style", 3)) {
        if (!(row = row_of())) return strlen(reply);
        return row->has_style ? style_told(row->style) : said("ok");
    }
    return said("error\tBadLine");
}

int main(void) {
    char *line = NULL;
    size_t size = 0;
    ssize_t length;
    room = 1024, cells = calloc(room, sizeof *cells);
    rows = calloc(LAST_ROW + 1, sizeof *rows);
    style_slots = 1024, slots = calloc(style_slots, sizeof *slots), styles = malloc(style_slots * sizeof *styles);
    style_number("General\t0\t0\t-", 13);
    while ((length = getline(&line, &size, stdin)) > 0) {
        if (length > LONGEST) return 1;
        if (line[length - 1] == '\n') length -= 1 + (length > 1 && line[length - 2] == '\r');
        length = split(line, length) ? answer() : said("error\tBadLine");
        reply[length++] = '\n';
        fwrite(reply, 1, length, stdout);
    }
    return 0;
}
