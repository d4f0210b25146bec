/* The session of the README, from C.
 *
 *   cc -Iinclude examples/c/session.c lib/liblurvetta.a -o session && ./session
 */
#include "lurvetta.h"

#include <stdio.h>
#include <stdlib.h>
#include <string.h>

static const char *const LINES[] = {
    "set_user_input\t0\t1\t1\tRent",
    "set_user_input\t0\t1\t2\t1,200.50$",
    "set_user_input\t0\t2\t1\tPower",
    "set_user_input\t0\t2\t2\t85.25$",
    "set_user_input\t0\t3\t1\tVAT",
    "set_user_input\t0\t3\t2\t19%",
    "set_user_input\t0\t4\t2\t=SUM(B1:B2)*(1+vat)+later!B4",
    "new_defined_name\tvat\t0\tSheet1!$B$3",
    "rename_sheet\tSHEET1\tJanuary",
    "duplicate_sheet\t0",
    "rename_sheet_by_index\t1\tFebruary",
    "get_defined_name_list",
    "would_capture\tvat\t1\tshare\t1\tFebruary!$B$3",
    "update_defined_name\tvat\t1\tshare\t1\tFebruary!$B$3",
    "add_sheet\tLater",
    "rename_sheet\tlater\tLast year",
    "set_language\tde",
    "set_locale\tde",
    "get_cell_formula\t1\t4\t2",
    "get_localized_cell_content\t1\t1\t2",
    "get_formatted_cell_value\t1\t1\t2",
    "get_sheet_markup\t1",
    "set_user_input\t1\t2\t2\t92,10",
    "set_user_input\t1\t5\t1\t'12",
    "get_cell_value_by_index\t1\t2\t2",
    "get_cell_formula\t0\t4\t2",
    "add_sheet\tFEBRUARY",
};

/* A text of C as a pointer and a length. */
#define TEXT(text) (const uint8_t *)(text), strlen(text)

/* The rooms of the tables, for all books of the process, and of one book. */
static lurvetta_tables tables;
static lurvetta_book book;

static void give_up(const char *what, int status) {
    fprintf(stderr, "%s: status %d\n", what, status);
    exit(1);
}

int main(void) {
    int status = lurvetta_open(&book, &tables, TEXT("budget"), TEXT("en"), TEXT("en"), TEXT("UTC"), 0);
    if (status != LURVETTA_OK)
        give_up("lurvetta_open", status);
    for (size_t i = 0; i < sizeof LINES / sizeof *LINES; i++) {
        uint8_t room[64], *reply = room;
        size_t length;
        status = lurvetta_answer(&book, TEXT(LINES[i]), room, sizeof room, &length);
        /* The line was answered all the same, and its reply waits for a room that is large enough. */
        if (status == LURVETTA_NO_ROOM) {
            if (!(reply = malloc(length)))
                give_up("malloc", LURVETTA_NO_MEMORY);
            status = lurvetta_copy(&book, reply, length, &length);
        }
        if (status != LURVETTA_OK)
            give_up(LINES[i], status);
        fwrite(reply, 1, length, stdout);
        if (reply != room)
            free(reply);
    }
    lurvetta_close(&book);
    return 0;
}
