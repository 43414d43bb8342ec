/* What the examples that account need: reading a file, and printing a sheet's outcome. */
#ifndef SHARED_H
#define SHARED_H

#include "files.h"

#include <inttypes.h>

static void print_refusal(uint64_t answer)
{
    printf("refused %u line %u\n", CHECKRAVEN_NUMBER(answer), CHECKRAVEN_LINE(answer));
}

static void print_table(const char *name, const uint64_t *cells, unsigned lines)
{
    for (unsigned row = 0; row <= lines; row++) {
        const uint64_t *c = cells + 5 * row;
        if (row < lines)
            printf("%s %u", name, row + 1);
        else
            printf("%s total", name);
        printf(" %" PRIu64 " %" PRIu64 " %" PRIu64 " %" PRIu64 " %" PRIu64 "\n",
               c[0], c[1], c[2], c[3], c[4]);
    }
}

/* What the program prints for a sheet that had this answer and these tables. */
static void print_outcome(const uint8_t *sheet, uint64_t answer,
                          const uint64_t *exact, const uint64_t *shown)
{
    if (answer != CHECKRAVEN_ACCEPTED) {
        print_refusal(answer);
        return;
    }
    /* An accepted sheet has its header: the line count is at byte 4, the unit at 12. */
    unsigned lines = sheet[4] + 256u * sheet[5];
    static const uint64_t units[] = {0, 100000, 100000000, 100000000000};
    print_table("exact", exact, lines);
    printf("unit %" PRIu64 "\n", units[sheet[12]]);
    print_table("shown", shown, lines);
}

#endif
