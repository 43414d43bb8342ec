/*
 * Makes one call over a bridge to harmful.c, by the number of the function, and prints what came of it.
 */
#include <inttypes.h>
#include <stdio.h>
#include <stdlib.h>

#include "call.h"
#include "checkraven.h"

static _Alignas(16) uint8_t own[32] = "own", book[32] = "book", fugitive[32] = "fugitive", sheet[32] = "sheet", text[32];
static uint64_t exact[3] = { 5, 5, 5 }, shown[3] = { 7, 7, 7 }, outcomes[3];

static uint64_t made_call(int function)
{
    switch (function) {
    case ACCOUNT: return checkraven_account(own, 3, book, 4, fugitive, 8, sheet, 5, exact, 2, shown, 3);
    case ACCOUNT_BUNDLE: return checkraven_account_bundle(own, 3, book, 4, fugitive, 8, sheet, 5, exact, 3, shown, 3, outcomes, 2);
    case REPORT: return checkraven_report(own, 3, book, 4, fugitive, 8, sheet, 5, text + 1, 30);
    case SHEET_FROM_TEXT: return checkraven_sheet_from_text(sheet, 5, text, 32);
    case TEXT_FROM_SHEET: return checkraven_text_from_sheet(sheet, 5, text, 32);
    case ACCOUNT_TEXT: return checkraven_account_text(own + 1, 2, book + 3, 1, fugitive + 7, 8, sheet + 9, 5, exact, 3, shown, 2);
    case ROW: return checkraven_row(own + 1, 2, book + 3, 1, 1, 2, 3, 4, 5, 6, 7, (uint8_t *)exact, 9);
    case ROW_NUMBER: return checkraven_row_number(own + 1, 2, book + 3, 1, 9, 8, 7, 6, 5, 4, 3);
    case STEP: return checkraven_step(UINT64_MAX - 1, exact, 3, shown, 2);
    default: return checkraven_steps(UINT64_MAX - 1, exact, 3);
    }
}

int main(int count, char **words)
{
    uint64_t answer = made_call(count == 2 ? atoi(words[1]) : 0);
    printf("%" PRIu64, answer);
    for (size_t i = 0; i < 3; i++)
        printf(" %" PRIu64 " %" PRIu64, exact[i], shown[i]);
    puts("");
    return 0;
}
