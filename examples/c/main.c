/*
 * Reads a works' own book, the published book, a fugitive table and a sheet,
 * accounts for the sheet and prints the outcome:
 *   main OWN BOOK FUGITIVE SHEET
 * An own book that isn't there counts as one without rows, another file as empty.
 */
#include "shared.h"

static uint8_t own[ROOM_FOR_A_FILE], book[ROOM_FOR_A_FILE];
static uint8_t fugitive[ROOM_FOR_A_FILE], sheet[ROOM_FOR_A_FILE];
static uint64_t exact[CHECKRAVEN_MOST_CELLS], shown[CHECKRAVEN_MOST_CELLS];

int main(int count, char **words)
{
    if (count != 5) {
        fprintf(stderr, "usage: %s OWN BOOK FUGITIVE SHEET\n", words[0]);
        return 2;
    }
    size_t own_len = read_own(words[1], own);
    size_t book_len = read_file(words[2], book);
    size_t fugitive_len = read_file(words[3], fugitive);
    size_t sheet_len = read_file(words[4], sheet);
    uint64_t answer = checkraven_account(own, own_len, book, book_len,
                                         fugitive, fugitive_len, sheet, sheet_len,
                                         exact, CHECKRAVEN_MOST_CELLS,
                                         shown, CHECKRAVEN_MOST_CELLS);
    print_outcome(sheet, answer, exact, shown);
    return 0;
}
