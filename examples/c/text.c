/*
 * Reads a works' own book, the published book, a fugitive table and a text sheet,
 * as a spreadsheet saves it, accounts for it and prints the outcome:
 *   text OWN BOOK FUGITIVE TEXT
 * An own book that isn't there counts as one without rows, another file as empty.
 */
#include "shared.h"

static uint8_t own[ROOM_FOR_A_FILE], book[ROOM_FOR_A_FILE];
static uint8_t fugitive[ROOM_FOR_A_FILE], text[ROOM_FOR_A_FILE];
static uint8_t sheet[CHECKRAVEN_MOST_SHEET];
static uint64_t exact[CHECKRAVEN_MOST_CELLS], shown[CHECKRAVEN_MOST_CELLS];

int main(int count, char **words)
{
    if (count != 5) {
        fprintf(stderr, "usage: %s OWN BOOK FUGITIVE TEXT\n", words[0]);
        return 2;
    }
    size_t own_len = read_own(words[1], own);
    size_t book_len = read_file(words[2], book);
    size_t fugitive_len = read_file(words[3], fugitive);
    size_t text_len = read_file(words[4], text);
    uint64_t answer = checkraven_account_text(own, own_len, book, book_len,
                                              fugitive, fugitive_len, text, text_len,
                                              exact, CHECKRAVEN_MOST_CELLS,
                                              shown, CHECKRAVEN_MOST_CELLS);
    /* How many lines there are, and in which unit, stands in the binary sheet. */
    checkraven_sheet_from_text(text, text_len, sheet, CHECKRAVEN_MOST_SHEET);
    print_outcome(sheet, answer, exact, shown);
    return 0;
}
