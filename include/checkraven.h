/*
 * Checkraven, the declaration desk: from two coefficient books, a fugitive table
 * and a sheet to two tables, exact and shown.
 *
 * A sheet is one works' year for one pollutant in one medium. The works' own book
 * has the factors that it measured itself, and is asked before the published
 * one. The fugitive table has the factors of dust that never meets a duct. A
 * bundle has several sheets for one call. A text sheet is a sheet typed in a
 * spreadsheet and saved as comma-separated text.
 */
#ifndef CHECKRAVEN_H
#define CHECKRAVEN_H

#include <stddef.h>
#include <stdint.h>

#ifdef __cplusplus
extern "C" {
#endif

/* The answer for an accepted sheet, and for a bundle that is taken. */
#define CHECKRAVEN_ACCEPTED UINT64_C(0)

/* The answers for a settling step: something changed, or the table is whole. */
#define CHECKRAVEN_CHANGED UINT64_C(1)
#define CHECKRAVEN_WHOLE   UINT64_C(0)

/*
 * The refusal numbers. For a sheet they are looked for in the order 1, 13, 2, 3,
 * then lines from 1 up, each in the order 4, 5, 15, 6, 14, 7 to 11; for a text
 * sheet 12 is looked for in the place of 2. For a whole bundle 16 is looked for
 * first, then 3, and no other; for a settling step 22, then 3, and no other.
 */
#define CHECKRAVEN_BOOK_MALFORMED      1  /* either book malformed or over a limit */
#define CHECKRAVEN_SHEET_MALFORMED     2  /* sheet malformed, over a limit, or shown unit not 1 to 3 */
#define CHECKRAVEN_RESULT_TOO_SHORT    3  /* either result shorter than 5 * (lines + 1), or too little room lent */
#define CHECKRAVEN_ACTIVITY_TOO_LARGE  4  /* product or material above 10^9 kg */
#define CHECKRAVEN_REUSE_TOO_LARGE     5  /* reuse above 1000, in any medium */
#define CHECKRAVEN_NO_ROW              6  /* no row in either book */
#define CHECKRAVEN_NO_TECHNIQUE        7  /* technique not in the row's list */
#define CHECKRAVEN_WRONG_KIND          8  /* reading kind doesn't go with the k rule */
#define CHECKRAVEN_BAD_READING         9  /* a used reading is bad or over its limit */
#define CHECKRAVEN_ZERO_DIVISOR       10  /* production hours, rated kW or energy run hours 0 as thousandths */
#define CHECKRAVEN_K_ABOVE_ONE        11  /* energy above what the rating allows: k above 1 */
#define CHECKRAVEN_TEXT_MALFORMED     12  /* text sheet malformed, over a limit, or shown unit not 1 to 3 */
#define CHECKRAVEN_FUGITIVE_MALFORMED 13  /* fugitive table malformed or over a limit */
#define CHECKRAVEN_NO_FUGITIVE_ENTRY  14  /* grade given and no entry in the fugitive table */
#define CHECKRAVEN_BAD_GRADE          15  /* grade above 3, or given outside particulates in gas */
#define CHECKRAVEN_BUNDLE_MALFORMED   16  /* bundle malformed or over a limit */
#define CHECKRAVEN_TABLE_OFF          22  /* table of a step malformed or a sum off, or shown unit not 1 to 3 */

/* Number and line of a refusal. The line counts from 1; 0 means a whole file. */
#define CHECKRAVEN_NUMBER(answer) ((unsigned)((answer) / UINT64_C(65536)))
#define CHECKRAVEN_LINE(answer)   ((unsigned)((answer) % UINT64_C(65536)))

/* Cells that each result needs for a sheet of that many lines. */
#define CHECKRAVEN_CELLS(lines) (5 * ((size_t)(lines) + 1))

/* Cells that are enough for every sheet: 128 lines and the row of sums. */
#define CHECKRAVEN_MOST_CELLS CHECKRAVEN_CELLS(128)

/* The most sheets in a bundle. */
#define CHECKRAVEN_MOST_SHEETS 16

/* Bytes that are enough for the report of every sheet. */
#define CHECKRAVEN_MOST_TEXT 34082

/* Bytes that are enough for the sheet of every text: 128 lines. */
#define CHECKRAVEN_MOST_SHEET 8208

/* Bytes that are enough for the text of every sheet: 26 for each field. */
#define CHECKRAVEN_MOST_SHEET_TEXT 53326

/* The most rows in a book. */
#define CHECKRAVEN_MOST_ROWS 1024

/* Bytes that are enough for every row of a book. */
#define CHECKRAVEN_MOST_ROW 24

/* The own book of a works that has no factors of its own: no rows. */
static const uint8_t checkraven_no_own[16] = { 16, 0, 0, 0, 0, 0, 0, 0, 16, 0, 0, 0, 16, 0, 0, 0 };

/* The fugitive table of a works without fugitive dust: no entries. */
static const uint8_t checkraven_no_fugitive[12] = { 12, 0, 0, 0, 0, 0, 0, 0, 12, 0, 0, 0 };

/*
 * Accounts for one sheet with two books and one fugitive table.
 *
 * Lent for reading: the works' own book (own_len bytes), the published book
 * (book_len bytes), the fugitive table (fugitive_len bytes) and the sheet
 * (sheet_len bytes). They never change.
 * Lent for writing: the results exact (exact_len cells) and shown (shown_len
 * cells). They overlap neither each other nor the files.
 * No pointer is null, also where its length is 0, and both results are aligned
 * as uint64_t. The files may stand at any address, and the own book may be the
 * published one.
 *
 * Both books have the same form. A line's row is searched in the own book for the
 * line's scale, then there for scale 0, then in the published book for the line's
 * scale, then there for scale 0; the first that is found is the line's row. The
 * techniques that its list names stand in the same book. A works that holds no
 * factors of its own lends checkraven_no_own.
 *
 * A fugitive table has at most 65,536 bytes, little-endian: its length u32, the
 * number of its entries u16 (at most 1,024), zero u16, the offset of its entries
 * u32 (at least 12). An entry has 28 bytes, all u16: industry, product, material,
 * process, scale, then nine factors in thousandths of kg/t: crushing and feeding
 * good, middle, poor; tapping good, middle, poor; furnace spill good, middle,
 * poor. Entries strictly rise by industry to scale, and end inside the length.
 * What lies around them isn't looked at. A works without fugitive dust lends
 * checkraven_no_fugitive.
 *
 * A line's grades are its bytes 56, 57 and 58: crushing and feeding, tapping,
 * furnace spill; 0 absent, 1 good, 2 middle, 3 poor. Its fugitive amount F is the
 * sum of the chosen factors times its product, from the entry for its scale, or
 * else for scale 0; treatment takes nothing off it. A line without grades needs
 * no entry, and its F is 0.
 *
 * The answer is 0 for an accepted sheet. The first 5 * (lines + 1) cells of
 * each result then hold its table, further cells keep their values. A row has
 * five cells: generated G, removed R, reused U, discharged D, fugitive F. There
 * is one row for each line and a last row of sums. In every row G = R + U + D + F.
 *   exact: in units of 10 micrograms (1 g = 10^5, 1 kg = 10^8, 1 t = 10^11).
 *   shown: in whole shown units of the sheet (gram, kilogram or tonne). Each
 *          cell is the exact one in that unit where that is whole, else one of
 *          the two whole numbers around it. In every column the last row is
 *          the sum of the rows above.
 *
 * Otherwise the answer is number * 65536 + line: the first refusal in the
 * order 1, 13, 2, 3, then lines from 1 up, each in the order 4, 5, 15, 6, 14,
 * 7 to 11. 1 is for either book, and the own one is looked at first; 6 is for a
 * line that has no row in either. All cells of both results are then zero.
 */
uint64_t checkraven_account(const uint8_t *own, size_t own_len,
                            const uint8_t *book, size_t book_len,
                            const uint8_t *fugitive, size_t fugitive_len,
                            const uint8_t *sheet, size_t sheet_len,
                            uint64_t *exact, size_t exact_len,
                            uint64_t *shown, size_t shown_len);

/*
 * Accounts for every sheet of a bundle with two books and one fugitive table.
 *
 * Lent for reading: the works' own book (own_len bytes), the published book
 * (book_len bytes), the fugitive table (fugitive_len bytes) and the bundle
 * (bundle_len bytes). They never change.
 * Lent for writing: the results exact (exact_len cells) and shown (shown_len
 * cells), and outcomes (outcomes_len cells). They overlap neither each other
 * nor the files.
 * No pointer is null, also where its length is 0, and exact, shown and outcomes
 * are aligned as uint64_t. The files may stand at any address.
 *
 * A bundle has at most 65,536 bytes, little-endian: its length u32, the number
 * of its sheets u16 (at most 16), zero u16, cells per sheet u32, then for each
 * sheet its offset u32 and its length u32. No sheet begins before the end of
 * these entries or of the sheet before it, and all end inside the length. What
 * lies between them isn't looked at.
 *
 * The answer is 0 for a bundle that is taken, also where a sheet is refused.
 * Sheet i, counted from 0, owns the cells from i * cells on, as many as there
 * are cells per sheet, in each result. These runs and outcomes[i] are then
 * what checkraven_account leaves and answers for that sheet alone, with the
 * two runs lent to it: a refused sheet's runs are zero, and no other's. Cells
 * past all runs keep their values, and so do outcomes past the number of
 * sheets. A bad book, of either kind, is refused for each sheet, and so is a bad
 * fugitive table; a bundle without sheets is taken with any of them and changes
 * nothing.
 *
 * Otherwise the answer is number * 65536, and all cells of exact, shown and
 * outcomes are zero:
 *   CHECKRAVEN_BUNDLE_MALFORMED: the bundle isn't as above.
 *   CHECKRAVEN_RESULT_TOO_SHORT: either result has fewer than sheets * cells
 *                                per sheet, or outcomes fewer than sheets.
 * They are looked for in this order, before the books, the fugitive table and any
 * sheet.
 */
uint64_t checkraven_account_bundle(const uint8_t *own, size_t own_len,
                                   const uint8_t *book, size_t book_len,
                                   const uint8_t *fugitive, size_t fugitive_len,
                                   const uint8_t *bundle, size_t bundle_len,
                                   uint64_t *exact, size_t exact_len,
                                   uint64_t *shown, size_t shown_len,
                                   uint64_t *outcomes, size_t outcomes_len);

/*
 * Writes the report of one sheet with two books and one fugitive table: the text
 * that the program prints.
 *
 * Lent for reading: the works' own book (own_len bytes), the published book
 * (book_len bytes), the fugitive table (fugitive_len bytes) and the sheet
 * (sheet_len bytes). They never change.
 * Lent for writing: the text (text_len bytes). It overlaps no file.
 * No pointer is null, also where its length is 0. The files and the text may
 * stand at any address.
 *
 * The answer is the number of bytes written, below 65536, for figures and for
 * a refusal alike. The text then begins with them, further bytes keep their
 * values, and no zero byte ends them. They are ASCII, each line ends in '\n':
 *   figures: the exact rows, 'unit' with W, the shown rows. A row is 'exact' or
 *            'shown', the line's number or 'total', then G, R, U, D, F.
 *   refusal: 'refused N line L', with the number and the line that
 *            checkraven_account answers where both results have room.
 *
 * Where the text has no room for all of them the answer is
 * CHECKRAVEN_RESULT_TOO_SHORT * 65536, and all bytes of the text are zero.
 */
uint64_t checkraven_report(const uint8_t *own, size_t own_len,
                           const uint8_t *book, size_t book_len,
                           const uint8_t *fugitive, size_t fugitive_len,
                           const uint8_t *sheet, size_t sheet_len,
                           uint8_t *text, size_t text_len);

/*
 * Reads a text sheet and writes the binary sheet that it stands for.
 *
 * Lent for reading: the text (text_len bytes). It never changes.
 * Lent for writing: the sheet (sheet_len bytes). It doesn't overlap the text.
 * No pointer is null, also where its length is 0. Both may stand at any
 * address.
 *
 * A text has at most 65,536 bytes. By RFC 4180 commas stand between fields and
 * records end in CR LF, which the last one need not have; a field may stand in
 * double quotes. The first record has three fields: medium, pollutant, shown
 * unit. Then comes one record for each line, at most 128, with 16 fields in the
 * order of the binary ones: industry, product, material, process, scale,
 * technique, reuse, kind, product in kilograms, material in kilograms, the
 * readings a, b and c, the grades of crushing, tapping and spill. Grades that are
 * left off at a record's end, with their commas, count as 0.
 *   numeral: 1 to 20 digits, a number that fits the binary field; leading
 *            zeros are fine, no sign, no space.
 *   reading: 1 to 11 digits, with or without a point and 1 to 3 more.
 *
 * The answer is the number of bytes written, 16 + 64 * lines, below 65536. The
 * sheet then begins with them: its lines start at 16, and it ends with them.
 * Further bytes keep their values. A reading of t thousandths is the double t / 1000.0; one
 * that the kind doesn't use, and each one with technique 0, is 0.0 whichever
 * reading was read.
 *
 * Otherwise the answer is number * 65536, and all bytes of the sheet are zero:
 *   CHECKRAVEN_TEXT_MALFORMED:   the text isn't as above, or checkraven_account
 *                                would refuse what it says with 2: the medium,
 *                                the pollutant, the shown unit or a kind.
 *   CHECKRAVEN_RESULT_TOO_SHORT: the sheet has no room for all bytes.
 * They are looked for in this order.
 */
uint64_t checkraven_sheet_from_text(const uint8_t *text, size_t text_len,
                                    uint8_t *sheet, size_t sheet_len);

/*
 * Writes a binary sheet as text.
 *
 * Lent for reading: the sheet (sheet_len bytes). It never changes.
 * Lent for writing: the text (text_len bytes). It doesn't overlap the sheet.
 * No pointer is null, also where its length is 0. Both may stand at any
 * address.
 *
 * The answer is the number of bytes written, below 65536. The text then begins
 * with them, further bytes keep their values, and no zero byte ends them. They
 * are ASCII, and records and fields as checkraven_sheet_from_text takes them:
 * every line has its 16 fields, every record ends in CR LF, no field stands in
 * quotes, no number has needless leading zeros, and a reading has three places.
 * One that the kind doesn't use, and each one with technique 0, is written 0. What
 * was written and read again has the same answer and the same tables.
 *
 * Otherwise the answer is number * 65536 + line, and all bytes of the text are
 * zero:
 *   CHECKRAVEN_SHEET_MALFORMED:  checkraven_account would refuse the sheet with 2.
 *   CHECKRAVEN_BAD_READING:      with the first line that has a used reading
 *                                which is bad or over its limit.
 *   CHECKRAVEN_RESULT_TOO_SHORT: the text has no room for all bytes.
 * They are looked for in this order.
 */
uint64_t checkraven_text_from_sheet(const uint8_t *sheet, size_t sheet_len,
                                    uint8_t *text, size_t text_len);

/*
 * Accounts for one text sheet with two books and one fugitive table.
 *
 * All is as with checkraven_account for the sheet that
 * checkraven_sheet_from_text writes for the text, with 12 in the place of 2: the
 * first refusal is the first in the order 1, 13, 12, 3, then lines from 1 up,
 * each in the order 4, 5, 15, 6, 14, 7 to 11.
 */
uint64_t checkraven_account_text(const uint8_t *own, size_t own_len,
                                 const uint8_t *book, size_t book_len,
                                 const uint8_t *fugitive, size_t fugitive_len,
                                 const uint8_t *text, size_t text_len,
                                 uint64_t *exact, size_t exact_len,
                                 uint64_t *shown, size_t shown_len);

/*
 * Copies the bytes of the row that answers, from whichever of the two books has
 * it, for the inspector's screen.
 *
 * Lent for reading: the works' own book (own_len bytes) and the published book
 * (book_len bytes). They never change.
 * Lent for writing: the row (row_len bytes). It overlaps no book.
 * No pointer is null, also where its length is 0. The books and the row may stand
 * at any address, and the own book may be the published one.
 *
 * The row that answers is the one that checkraven_account takes for a line with
 * this industry, product, material, process and scale in a sheet of this medium
 * and pollutant. A number that no field can hold, as industry 65536 or medium
 * 256, finds no row.
 *
 * The answer is the number of bytes copied, 24. The row then begins with them, as
 * they stand in their book, and further bytes keep their values.
 * The answer is 0 where no row is found, and where either book is one that
 * checkraven_account refuses with 1. All bytes of the row keep their values.
 * The answer is CHECKRAVEN_RESULT_TOO_SHORT * 65536 where a row is found and the
 * lent one has no room for it. All its bytes are then zero.
 */
uint64_t checkraven_row(const uint8_t *own, size_t own_len,
                        const uint8_t *book, size_t book_len,
                        uint64_t industry, uint64_t product, uint64_t material,
                        uint64_t process, uint64_t scale,
                        uint64_t medium, uint64_t pollutant,
                        uint8_t *row, size_t row_len);

/*
 * Says which row answers: in which of the two books it stands, and where there.
 *
 * All is as with checkraven_row, but that nothing is lent for writing.
 *
 * The answer, always below 65536, counts rows from 1:
 *   0:                             no row is found, or either book is refused.
 *   1 to CHECKRAVEN_MOST_ROWS:     that row of the works' own book.
 *   above CHECKRAVEN_MOST_ROWS:    less CHECKRAVEN_MOST_ROWS, that row of the
 *                                  published book.
 * Row n of a book begins 24 * (n - 1) bytes after its row offset, the u32 at byte
 * 8 of its header.
 */
uint64_t checkraven_row_number(const uint8_t *own, size_t own_len,
                               const uint8_t *book, size_t book_len,
                               uint64_t industry, uint64_t product, uint64_t material,
                               uint64_t process, uint64_t scale,
                               uint64_t medium, uint64_t pollutant);

/*
 * Takes one settling step of a table, for a screen that draws the table being
 * settled: from the exact table on, every table up to the shown one.
 *
 * Lent for reading: the table (table_len cells). It never changes.
 * Lent for writing: next (next_len cells). It doesn't overlap the table.
 * No pointer is null, also where its length is 0, and both are aligned as
 * uint64_t.
 *
 * unit is the code of the shown unit, as a sheet has it: 1 gram, 2 kilogram, 3
 * tonne; W is that unit as a number of 10 micrograms, 10^5, 10^8 or 10^11. A cell
 * is whole where W divides it. A table has 1 to 129 rows of five cells, row after
 * row: G, R, U, D, F, each at most 16 * 10^18. In every row G = R + U + D + F, and
 * in every column the last row is the sum of the rows above, so that the cells of
 * a table of one row are all 0. Sums are compared as numbers, and never modulo
 * 2^64. So the exact table that checkraven_account leaves is one, at its 5 *
 * (lines + 1) cells.
 *
 * The answer is CHECKRAVEN_CHANGED or CHECKRAVEN_WHOLE. Next then begins with the
 * table after the step, and further cells keep their values.
 *   CHECKRAVEN_CHANGED: at least one cell more is whole, no whole cell changed,
 *                       no cell passed a whole number of W, and all sums are
 *                       right. One closed round of cells moved, each up or down
 *                       by the same amount: none or two in each row, none or two
 *                       in each column. Which round, and which cells go up, is
 *                       said in docs/SETTLING.md.
 *   CHECKRAVEN_WHOLE:   every cell is whole, and the table stays as it is.
 * Step after step from the exact table on, the table becomes whole; divided by W
 * it is then the shown table of checkraven_account.
 *
 * Otherwise the answer is number * 65536, and all cells of next are zero:
 *   CHECKRAVEN_TABLE_OFF:        the table or the unit isn't as above.
 *   CHECKRAVEN_RESULT_TOO_SHORT: next has fewer cells than the table.
 * They are looked for in this order.
 */
uint64_t checkraven_step(uint64_t unit, const uint64_t *table, size_t table_len,
                         uint64_t *next, size_t next_len);

/*
 * Says how often checkraven_step changes something, from this table on.
 *
 * All is as with checkraven_step, but that nothing is lent for writing.
 *
 * The answer is that number, 0 for a whole table and never more than table_len,
 * which for the exact table is 5 * (lines + 1); or CHECKRAVEN_TABLE_OFF * 65536.
 */
uint64_t checkraven_steps(uint64_t unit, const uint64_t *table, size_t table_len);

#ifdef __cplusplus
}
#endif

#endif
