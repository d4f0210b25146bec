/* Formulas' values, spills and clearing on one sheet by hand in C, as a floor: answers the lines of seven commands as the
   program does. Cells stand in a hash table by their place. The text of a formula is copied and not read: one with `:` is
   taken for an array. Values are amounts alone; the sheet is number 0, nothing is merged, and no block is larger than what
   a line of 1,100 words can fill. */
enum { WORDS = 1100 };
#include "words.h"

enum kind { NONE, EMPTY, FORMULA, DYNAMIC, CSE, SPILL };
enum value { UNEVALUATED, NUMBER, ERROR, TEXT };
struct cell { amount value; char *text; uint32_t row; uint16_t column; uint8_t kind, has; int first, second; };
struct block { int64_t row, column, width, height; };

static struct cell *cells;
static size_t room, used;
static char reply[100];

static size_t slot_of(uint32_t row, uint32_t column) {
    size_t place = ((row * 16384ull + column) * 0x9E3779B97F4A7C15ull >> 20) & (room - 1);
    while (cells[place].row && (cells[place].row != row || cells[place].column != (uint16_t)column)) place = (place + 1) & (room - 1);
    return place;
}

static struct cell *made(uint32_t row, uint32_t column) {
    size_t place = slot_of(row, column);
    if (cells[place].row) return &cells[place];
    if (++used * 2 > room) {
        struct cell *before = cells;
        size_t many = room;
        room *= 2, cells = calloc(room, sizeof *cells);
        for (size_t n = 0; n < many; n++)
            if (before[n].row) cells[slot_of(before[n].row, before[n].column)] = before[n];
        free(before);
        place = slot_of(row, column);
    }
    cells[place].row = row, cells[place].column = column;
    return &cells[place];
}

static size_t said(const char *text) { return strlen(strcpy(reply, text)); }

static void become(struct cell *cell, enum kind kind) {
    free(cell->text), cell->text = NULL;
    cell->kind = kind;
}

/* Empties the spill of a dynamic array, whose formula is for its own cell alone then. */
static void unspill(struct cell *anchor) {
    for (int row = anchor->row; row < (int)anchor->row + anchor->second; row++)
        for (int column = anchor->column; column < anchor->column + anchor->first; column++) {
            struct cell *cell = &cells[slot_of(row, column)];
            if (cell != anchor) cell->kind = EMPTY;
        }
    anchor->first = anchor->second = 1;
}

static struct cell *anchor_of(struct cell *cell) {
    if (cell->kind == SPILL) return &cells[slot_of(cell->first, cell->second)];
    return cell->kind == DYNAMIC || cell->kind == CSE ? cell : NULL;
}

static int is_fixed(struct cell *cell) {
    struct cell *anchor = anchor_of(cell);
    return anchor && anchor->kind == CSE && anchor->first * anchor->second > 1;
}

static void release(struct cell *cell) {
    struct cell *anchor = anchor_of(cell);
    if (anchor && anchor->kind == DYNAMIC) unspill(anchor), anchor->has = UNEVALUATED;
}

static int is_area(const struct block *b) {
    return b->row >= 1 && b->column >= 1 && b->width >= 1 && b->height >= 1 && b->row + b->height - 1 <= LAST_ROW && b->column + b->width - 1 <= LAST_COLUMN;
}

static int read_block(struct block *b, int has_size) {
    uint32_t sheet;
    *b = (struct block){1, 1, 1, 1};
    if (count < 4 || !read_index(1, &sheet) || !read_position(2, &b->row) || !read_position(3, &b->column)) return said("error\tBadLine"), 0;
    if (has_size && (count < 6 || !read_position(4, &b->width) || !read_position(5, &b->height))) return said("error\tBadLine"), 0;
    if (sheet) return said("error\tInvalidSheet"), 0;
    return 1;
}

static int read_value(size_t word, amount *to) { return words[word][0] == 'n' && words[word][1] == ':' && amount_in(words[word] + 2, to); }

static size_t write_formula(void) {
    struct block b;
    if (!read_block(&b, 0)) return strlen(reply);
    if (!is_area(&b)) return said(b.row < 1 || b.row > LAST_ROW ? "error\tInvalidRow" : "error\tInvalidColumn");
    if (words[4][0] != '=' || !words[4][1]) return said("error\tNotAFormula");
    struct cell *cell = made(b.row, b.column);
    if (is_fixed(cell)) return said("error\tArrayPart");
    release(cell);
    become(cell, strchr(words[4], ':') ? DYNAMIC : FORMULA);
    cell->text = strdup(words[4] + 1), cell->has = UNEVALUATED, cell->first = cell->second = 1;
    return said("ok");
}

static size_t write_array(void) {
    struct block b;
    if (!read_block(&b, 1)) return strlen(reply);
    if (!is_area(&b)) return said("error\tBadArea");
    for (int64_t y = b.row; y < b.row + b.height; y++)
        for (int64_t x = b.column; x < b.column + b.width; x++)
            if (is_fixed(&cells[slot_of(y, x)])) return said("error\tArrayPart");
    if (words[6][0] != '=' || !words[6][1]) return said("error\tNotAFormula");
    for (int64_t y = b.row; y < b.row + b.height; y++)
        for (int64_t x = b.column; x < b.column + b.width; x++) release(made(y, x));
    for (int64_t y = b.row; y < b.row + b.height; y++)
        for (int64_t x = b.column; x < b.column + b.width; x++) {
            struct cell *cell = &cells[slot_of(y, x)];
            become(cell, SPILL);
            cell->has = TEXT, cell->first = b.row, cell->second = b.column;
        }
    struct cell *anchor = &cells[slot_of(b.row, b.column)];
    anchor->kind = CSE, anchor->has = UNEVALUATED, anchor->first = b.width, anchor->second = b.height;
    anchor->text = strdup(words[6] + 1);
    return said("ok");
}

static size_t put_value(void) {
    struct block b;
    amount value;
    if (!read_block(&b, 0)) return strlen(reply);
    if (!read_value(4, &value)) return said("error\tBadLine");
    struct cell *cell = &cells[slot_of(b.row, b.column)];
    if (cell->kind != FORMULA && cell->kind != DYNAMIC && cell->kind != CSE) return said("error\tNoFormulaCell");
    if (cell->kind == DYNAMIC) unspill(cell);
    for (int y = 0; cell->kind == CSE && y < cell->second; y++)
        for (int x = 0; x < cell->first; x++) {
            struct cell *other = &cells[slot_of(b.row + y, b.column + x)];
            other->value = value, other->has = NUMBER;
        }
    cell->value = value, cell->has = NUMBER;
    return said("ok");
}

static size_t put_spill(void) {
    struct block b;
    amount value;
    if (!read_block(&b, 1)) return strlen(reply);
    for (size_t n = 6; n < count; n++)
        if (!read_value(n, &value)) return said("error\tBadLine");
    struct cell *anchor = &cells[slot_of(b.row, b.column)];
    if (anchor->kind != DYNAMIC && anchor->kind != CSE) return said("error\tNoFormulaCell");
    if (b.width < 1 || b.height < 1 || b.width * b.height != (int64_t)count - 6) return said("error\tBadArea");
    if (anchor->kind == CSE && (anchor->first != b.width || anchor->second != b.height)) return said("error\tBadArea");
    if (anchor->kind == DYNAMIC && b.width * b.height > 1)
        for (int64_t y = b.row; y < b.row + b.height; y++)
            for (int64_t x = b.column; x < b.column + b.width; x++) {
                if (y > LAST_ROW || x > LAST_COLUMN) return said("error\tSpillBlocked");
                struct cell *cell = &cells[slot_of(y, x)];
                if (cell != anchor && cell->kind > EMPTY && !(cell->kind == SPILL && cell->first == b.row && cell->second == b.column)) return said("error\tSpillBlocked");
            }
    if (anchor->kind == DYNAMIC) unspill(anchor);
    for (int64_t y = 0; y < b.height; y++)
        for (int64_t x = 0; x < b.width; x++) {
            struct cell *cell = made(b.row + y, b.column + x);
            read_value(6 + y * b.width + x, &cell->value), cell->has = NUMBER;
            if (x || y) cell->kind = SPILL, cell->first = b.row, cell->second = b.column;
        }
    anchor = &cells[slot_of(b.row, b.column)];
    anchor->first = b.width, anchor->second = b.height;
    return said("ok");
}

static size_t clear(int all) {
    struct block b;
    if (!read_block(&b, 1)) return strlen(reply);
    if (!is_area(&b)) return said("error\tBadArea");
    for (int64_t y = b.row; y < b.row + b.height; y++)
        for (int64_t x = b.column; x < b.column + b.width; x++) {
            struct cell *cell = &cells[slot_of(y, x)];
            if (!is_fixed(cell)) continue;
            struct cell *anchor = anchor_of(cell);
            if (anchor->row < b.row || anchor->column < b.column || anchor->row + anchor->second > b.row + b.height || anchor->column + anchor->first > b.column + b.width) return said("error\tClearArray");
        }
    for (int64_t y = b.row; y < b.row + b.height; y++)
        for (int64_t x = b.column; x < b.column + b.width; x++) {
            struct cell *cell = &cells[slot_of(y, x)];
            if (cell->kind == NONE) continue;
            release(cell);
            become(cell, all ? NONE : EMPTY);
        }
    return said("ok");
}

static size_t value_of(void) {
    struct block b;
    if (!read_block(&b, 0)) return strlen(reply);
    struct cell *cell = is_area(&b) ? &cells[slot_of(b.row, b.column)] : NULL;
    if (!cell || cell->kind <= EMPTY) return said("ok\tnone");
    if (cell->has == UNEVALUATED) return said("ok\tstring\t#ERROR!");
    if (cell->has == TEXT) return said("ok\tstring\t");
    size_t length = said("ok\tnumber\t");
    return length + spelled(reply + length, cell->value);
}

#define IS(name, wanted) (count == wanted && !strcmp(words[0], name))

static size_t answer(void) {
    if (IS("put_formula_value", 5)) return put_value();
    if (IS("get_cell_value_by_index", 4)) return value_of();
    if (count > 6 && !strcmp(words[0], "put_spill")) return put_spill();
    if (IS("update_cell_with_formula", 5)) return write_formula();
    if (IS("set_user_array_formula", 7)) return write_array();
    if (IS("range_clear_contents", 6)) return clear(0);
    if (IS("range_clear_all", 6)) return clear(1);
    return said("error\tBadLine");
}

int main(void) {
    char *line = NULL;
    size_t size = 0;
    ssize_t length;
    room = 1024, cells = calloc(room, sizeof *cells);
    while ((length = getline(&line, &size, stdin)) > 0) {
        if (line[length - 1] == '\n') length -= 1 + (length > 1 && line[length - 2] == '\r');
        length = split(line, length) ? answer() : said("error\tBadLine");
        reply[length++] = '\n';
        fwrite(reply, 1, length, stdout);
    }
    return 0;
}
