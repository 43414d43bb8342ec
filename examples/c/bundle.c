/*
 * Reads a works' own book, the published book, a fugitive table and a bundle,
 * accounts for all sheets of the bundle in one call and prints the outcome of each:
 *   bundle OWN BOOK FUGITIVE BUNDLE
 * An own book that isn't there counts as one without rows, another file as empty.
 */
#include "shared.h"

/* Room for 16 sheets of 128 lines. */
#define CELLS (CHECKRAVEN_MOST_SHEETS * CHECKRAVEN_MOST_CELLS)

static uint8_t own[ROOM_FOR_A_FILE], book[ROOM_FOR_A_FILE];
static uint8_t fugitive[ROOM_FOR_A_FILE], bundle[ROOM_FOR_A_FILE];
static uint64_t exact[CELLS], shown[CELLS], outcomes[CHECKRAVEN_MOST_SHEETS];

static uint32_t number_at(const uint8_t *b)
{
    return b[0] | (uint32_t)b[1] << 8 | (uint32_t)b[2] << 16 | (uint32_t)b[3] << 24;
}

int main(int count, char **words)
{
    if (count != 5) {
        fprintf(stderr, "usage: %s OWN BOOK FUGITIVE BUNDLE\n", words[0]);
        return 2;
    }
    size_t own_len = read_own(words[1], own);
    size_t book_len = read_file(words[2], book);
    size_t fugitive_len = read_file(words[3], fugitive);
    size_t bundle_len = read_file(words[4], bundle);
    uint64_t answer = checkraven_account_bundle(own, own_len, book, book_len,
                                                fugitive, fugitive_len, bundle, bundle_len,
                                                exact, CELLS, shown, CELLS,
                                                outcomes, CHECKRAVEN_MOST_SHEETS);
    if (answer != CHECKRAVEN_ACCEPTED) {
        print_refusal(answer);
        return 0;
    }
    /* A bundle that is taken has its header: the number of sheets is at byte 4
     * with zeros after it, the cells per sheet at 8, each sheet's offset from 12 on. */
    size_t sheets = number_at(bundle + 4), cells = number_at(bundle + 8);
    for (size_t i = 0; i < sheets; i++) {
        const uint8_t *sheet = bundle + number_at(bundle + 12 + 8 * i);
        printf("sheet %zu\n", i + 1);
        print_outcome(sheet, outcomes[i], exact + i * cells, shown + i * cells);
    }
    return 0;
}
