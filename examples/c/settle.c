/*
 * Reads a works' own book, the published book, a fugitive table and a sheet,
 * accounts for the sheet and settles its exact table step by step, as a screen
 * that draws it does:
 *   settle OWN BOOK FUGITIVE SHEET
 * Of every table it prints how many cells are whole, and the sums. It ends with 1
 * where the last table isn't the shown one, or checkraven_steps counts otherwise.
 * An own book that isn't there counts as one without rows, another file as empty.
 */
#include "files.h"

#include <inttypes.h>

static uint8_t own[ROOM_FOR_A_FILE], book[ROOM_FOR_A_FILE];
static uint8_t fugitive[ROOM_FOR_A_FILE], sheet[ROOM_FOR_A_FILE];
static uint64_t exact[CHECKRAVEN_MOST_CELLS], shown[CHECKRAVEN_MOST_CELLS];
static uint64_t table[CHECKRAVEN_MOST_CELLS], next[CHECKRAVEN_MOST_CELLS];

/* The shown units by their codes, in units of 10 micrograms. */
static const uint64_t units[] = {0, 100000, 100000000, 100000000000};

static void print_short(const uint64_t *cells, size_t count, uint64_t w)
{
    size_t whole = 0;
    for (size_t i = 0; i < count; i++)
        whole += cells[i] % w == 0;
    printf(": %zu of %zu cells whole, total", whole, count);
    for (size_t i = count - 5; i < count; i++)
        printf(" %" PRIu64, cells[i]);
    printf("\n");
}

static uint64_t step(uint64_t unit, size_t count)
{
    return checkraven_step(unit, table, count, next, CHECKRAVEN_MOST_CELLS);
}

/* Settles the table, and answers how many steps that took. A step makes a cell
 * whole, so that there are no more steps than cells. */
static size_t settle(uint64_t unit, size_t count)
{
    size_t steps = 0;
    while (steps < count && step(unit, count) == CHECKRAVEN_CHANGED) {
        memcpy(table, next, count * sizeof *table);
        steps++;
        printf("step %zu", steps);
        print_short(table, count, units[unit]);
    }
    return steps;
}

static int is_shown(size_t count, uint64_t w)
{
    for (size_t i = 0; i < count; i++)
        if (table[i] != shown[i] * w)
            return 0;
    return 1;
}

int main(int count, char **words)
{
    if (count != 5) {
        fprintf(stderr, "usage: %s OWN BOOK FUGITIVE SHEET\n", words[0]);
        return 2;
    }
    size_t own_len = read_own(words[1], own);
    size_t book_len = read_file(words[2], book);
    size_t fugitive_len = read_file(words[3], fugitive);
    size_t sheet_len = read_file(words[4], sheet);
    uint64_t answer = checkraven_account(own, own_len, book, book_len,
                                         fugitive, fugitive_len, sheet, sheet_len,
                                         exact, CHECKRAVEN_MOST_CELLS,
                                         shown, CHECKRAVEN_MOST_CELLS);
    if (answer != CHECKRAVEN_ACCEPTED) {
        printf("refused %u line %u\n", CHECKRAVEN_NUMBER(answer), CHECKRAVEN_LINE(answer));
        return 0;
    }
    /* An accepted sheet has its header: the line count is at byte 4, the unit at 12. */
    size_t cells = CHECKRAVEN_CELLS(sheet[4] + 256u * sheet[5]);
    uint64_t unit = sheet[12];
    memcpy(table, exact, cells * sizeof *table);
    printf("exact");
    print_short(table, cells, units[unit]);
    size_t steps = settle(unit, cells);
    printf("whole after %zu step%s\n", steps, steps == 1 ? "" : "s");
    return checkraven_steps(unit, exact, cells) == steps && is_shown(cells, units[unit]) ? 0 : 1;
}
