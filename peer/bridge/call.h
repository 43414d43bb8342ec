/*
 * A call as the bridge carries it: a struct call, then the bytes of all parts that are lent, one after the other. Back comes a struct
 * answer, then the bytes of the parts that are lent for writing.
 */
#ifndef CALL_H
#define CALL_H

#include <stdint.h>

enum function { ACCOUNT, ACCOUNT_BUNDLE, REPORT, SHEET_FROM_TEXT, TEXT_FROM_SHEET, ACCOUNT_TEXT, ROW, ROW_NUMBER, STEP, STEPS };

/* Two books, a fugitive table, a bundle, two results and the outcomes. */
#define MOST_PARTS 7

/* Industry, product, material, process, scale, medium and pollutant of a row; of a step the unit alone. */
#define NUMBERS 7

/* The address of a part differs from the caller's by a multiple of this, so that a part that stands at an odd address does so there too. */
#define ADDRESS_STEP 16

struct call {
    uint64_t function;
    uint64_t parts;
    uint64_t files; /* so many of the parts, the first ones, are lent for reading alone */
    uint64_t length[MOST_PARTS];  /* in bytes */
    uint64_t address[MOST_PARTS]; /* modulo ADDRESS_STEP */
    uint64_t number[NUMBERS];     /* of the row that is asked for, or of the step */
};

struct answer {
    uint64_t answer;
    uint64_t harm; /* 1 where memory has changed that was not lent for writing */
};

#endif
