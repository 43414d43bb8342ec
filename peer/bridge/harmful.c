/*
 * A library that does harm, for the test of the bridge: each function but the three from checkraven_account_text to checkraven_row, and
 * checkraven_step, touches what it must not, in a way of its own.
 */
#include "checkraven.h"

#define UNUSED __attribute__((unused))

uint64_t checkraven_account(UNUSED const uint8_t *own, UNUSED size_t own_len, UNUSED const uint8_t *book,
                            UNUSED size_t book_len, UNUSED const uint8_t *fugitive,
                            UNUSED size_t fugitive_len, UNUSED const uint8_t *sheet, UNUSED size_t sheet_len,
                            uint64_t *exact, size_t exact_len, UNUSED uint64_t *shown, UNUSED size_t shown_len)
{
    exact[exact_len] = 0;
    return 0;
}

uint64_t checkraven_account_bundle(UNUSED const uint8_t *own, UNUSED size_t own_len, UNUSED const uint8_t *book,
                                   UNUSED size_t book_len, UNUSED const uint8_t *fugitive,
                                   UNUSED size_t fugitive_len, UNUSED const uint8_t *bundle, UNUSED size_t bundle_len,
                                   UNUSED uint64_t *exact, UNUSED size_t exact_len, UNUSED uint64_t *shown, UNUSED size_t shown_len,
                                   uint64_t *outcomes, size_t outcomes_len)
{
    outcomes[outcomes_len] = 0;
    return 0;
}

uint64_t checkraven_report(UNUSED const uint8_t *own, UNUSED size_t own_len, UNUSED const uint8_t *book,
                           UNUSED size_t book_len, UNUSED const uint8_t *fugitive,
                           UNUSED size_t fugitive_len, UNUSED const uint8_t *sheet, UNUSED size_t sheet_len, uint8_t *text,
                           UNUSED size_t text_len)
{
    text[-1] = 0;
    return 0;
}

uint64_t checkraven_sheet_from_text(const uint8_t *text, size_t text_len, UNUSED uint8_t *sheet, UNUSED size_t sheet_len)
{
    ((uint8_t *)text)[text_len - 1] = 0;
    return 0;
}

uint64_t checkraven_text_from_sheet(UNUSED const uint8_t *sheet, UNUSED size_t sheet_len, UNUSED uint8_t *text, UNUSED size_t text_len)
{
    __builtin_trap();
}

/* The answer is where the files stand, modulo 16; both results are filled. */
uint64_t checkraven_account_text(const uint8_t *own, UNUSED size_t own_len, const uint8_t *book, UNUSED size_t book_len,
                                 const uint8_t *fugitive, UNUSED size_t fugitive_len,
                                 const uint8_t *text, UNUSED size_t text_len,
                                 uint64_t *exact, size_t exact_len, uint64_t *shown, size_t shown_len)
{
    for (size_t i = 0; i < exact_len; i++)
        exact[i] += i;
    for (size_t i = 0; i < shown_len; i++)
        shown[i] += 2 * i;
    return (uintptr_t)own % 16 * 4096 + (uintptr_t)book % 16 * 256 + (uintptr_t)fugitive % 16 * 16 + (uintptr_t)text % 16;
}

/* Where both books stand, modulo 16, then the numbers as decimal digits. */
uint64_t checkraven_row_number(const uint8_t *own, UNUSED size_t own_len, const uint8_t *book, UNUSED size_t book_len, uint64_t industry,
                               uint64_t product, uint64_t material, uint64_t process, uint64_t scale, uint64_t medium,
                               uint64_t pollutant)
{
    const uint64_t digits[] = { industry, product, material, process, scale, medium, pollutant };
    uint64_t answer = (uintptr_t)own % 16 * 16 + (uintptr_t)book % 16;
    for (size_t i = 0; i < sizeof digits / sizeof *digits; i++)
        answer = 10 * answer + digits[i];
    return answer;
}

/* The same; the last lent byte rises by 1. */
uint64_t checkraven_row(const uint8_t *own, size_t own_len, const uint8_t *book, size_t book_len, uint64_t industry, uint64_t product,
                        uint64_t material, uint64_t process, uint64_t scale, uint64_t medium, uint64_t pollutant,
                        uint8_t *row, size_t row_len)
{
    row[row_len - 1]++;
    return checkraven_row_number(own, own_len, book, book_len, industry, product, material, process, scale, medium, pollutant);
}

/* The unit less the sum of the table; each lent cell rises by the table's cell there. */
uint64_t checkraven_step(uint64_t unit, const uint64_t *table, size_t table_len, uint64_t *next, size_t next_len)
{
    for (size_t i = 0; i < next_len; i++)
        next[i] += table[i];
    for (size_t i = 0; i < table_len; i++)
        unit -= table[i];
    return unit;
}

uint64_t checkraven_steps(uint64_t unit, const uint64_t *table, size_t table_len)
{
    ((uint64_t *)table)[table_len - 1]++;
    return unit;
}
