/*
 * Reads a works' own book and the published book and prints for an inspector which
 * row of which book answers, and its bytes:
 *   row OWN BOOK INDUSTRY PRODUCT MATERIAL PROCESS SCALE MEDIUM POLLUTANT
 * An own book that isn't there counts as one without rows, another file as empty.
 */
#include "files.h"

#include <stdlib.h>

/* Industry, product, material, process, scale, medium, pollutant. */
#define FIELDS 7

static uint8_t own[ROOM_FOR_A_FILE], book[ROOM_FOR_A_FILE];

static void print_row(uint64_t number, const uint8_t *row, uint64_t length)
{
    if (number > CHECKRAVEN_MOST_ROWS)
        printf("published row %u:", (unsigned)number - CHECKRAVEN_MOST_ROWS);
    else
        printf("own row %u:", (unsigned)number);
    for (uint64_t i = 0; i < length; i++)
        printf(" %02x", row[i]);
    printf("\n");
}

int main(int count, char **words)
{
    if (count != 3 + FIELDS) {
        fprintf(stderr, "usage: %s OWN BOOK INDUSTRY PRODUCT MATERIAL PROCESS SCALE MEDIUM POLLUTANT\n",
                words[0]);
        return 2;
    }
    size_t own_len = read_own(words[1], own);
    size_t book_len = read_file(words[2], book);
    uint64_t key[FIELDS];
    for (int i = 0; i < FIELDS; i++)
        key[i] = strtoull(words[3 + i], NULL, 10);
    uint8_t row[CHECKRAVEN_MOST_ROW];
    uint64_t length = checkraven_row(own, own_len, book, book_len, key[0], key[1], key[2], key[3],
                                     key[4], key[5], key[6], row, CHECKRAVEN_MOST_ROW);
    if (length == 0) {
        printf("no row\n");
        return 0;
    }
    print_row(checkraven_row_number(own, own_len, book, book_len, key[0], key[1], key[2], key[3],
                                    key[4], key[5], key[6]),
              row, length);
    return 0;
}
