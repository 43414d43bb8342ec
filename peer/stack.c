/*
 * How much stack one call of the library takes: the call is made on a stack of
 * our own that was painted before, and what is no longer painted was used.
 *
 * Usage: stack OWN BOOK FUGITIVE SHEET BUNDLE, five files. Prints a line for each
 * function: its name, the bytes, and its answer. The text is the one that the library
 * writes of the sheet, the row the one of its first line, and the table that is
 * settled its exact one. Each call is made once before, so that nothing is left to the
 * loader, and on two colours, of which the deeper counts: a byte may be written
 * in one's colour.
 */
#define _GNU_SOURCE
#include "checkraven.h"
#include <pthread.h>
#include <stdio.h>
#include <stdlib.h>
#include <string.h>

enum { STACK_BYTES = 1 << 18, MOST_BYTES = 1 << 16, RESULT_CELLS = 1 << 14 };

typedef struct { uint8_t bytes[MOST_BYTES + 1]; size_t length; } File;

static File own, book, fugitive, sheet, text, bundle;
static uint64_t exact[RESULT_CELLS], shown[RESULT_CELLS], outcomes[CHECKRAVEN_MOST_SHEETS];
static uint8_t written[MOST_BYTES];
static uint8_t *stack;

static void load(File *file, const char *path)
{
    FILE *stream = fopen(path, "rb");
    if (stream == NULL) {
        perror(path);
        exit(1);
    }
    file->length = fread(file->bytes, 1, sizeof file->bytes, stream);
    fclose(stream);
}

static uint64_t nothing(void)
{
    __asm__ volatile("");
    return 0;
}

static uint64_t account(void)
{
    return checkraven_account(own.bytes, own.length, book.bytes, book.length, fugitive.bytes, fugitive.length, sheet.bytes, sheet.length,
                              exact, RESULT_CELLS, shown, RESULT_CELLS);
}

static uint64_t account_text(void)
{
    return checkraven_account_text(own.bytes, own.length, book.bytes, book.length, fugitive.bytes, fugitive.length, text.bytes, text.length,
                                   exact, RESULT_CELLS, shown, RESULT_CELLS);
}

static uint64_t account_bundle(void)
{
    return checkraven_account_bundle(own.bytes, own.length, book.bytes, book.length, fugitive.bytes, fugitive.length,
                                     bundle.bytes, bundle.length, exact, RESULT_CELLS, shown, RESULT_CELLS,
                                     outcomes, CHECKRAVEN_MOST_SHEETS);
}

static uint64_t report(void)
{
    return checkraven_report(own.bytes, own.length, book.bytes, book.length, fugitive.bytes, fugitive.length, sheet.bytes, sheet.length,
                             written, sizeof written);
}

static uint64_t sheet_from_text(void)
{
    return checkraven_sheet_from_text(text.bytes, text.length, written, sizeof written);
}

static uint64_t text_from_sheet(void)
{
    return checkraven_text_from_sheet(sheet.bytes, sheet.length, written, sizeof written);
}

/* The first line's code at a place, of the five codes that begin it. */
static uint64_t code(size_t place)
{
    const uint8_t *line = sheet.bytes + sheet.bytes[8] + 256 * sheet.bytes[9];
    return line[2 * place] + 256 * line[2 * place + 1];
}

static uint64_t row(void)
{
    return checkraven_row(own.bytes, own.length, book.bytes, book.length, code(0), code(1), code(2), code(3), code(4), sheet.bytes[6],
                          sheet.bytes[7], written, sizeof written);
}

static uint64_t row_number(void)
{
    return checkraven_row_number(own.bytes, own.length, book.bytes, book.length, code(0), code(1), code(2), code(3), code(4),
                                 sheet.bytes[6], sheet.bytes[7]);
}

/* Of the exact table, which an account before has left. */
static size_t table_cells(void)
{
    return CHECKRAVEN_CELLS(sheet.bytes[4] + 256 * sheet.bytes[5]);
}

static uint64_t step(void)
{
    return checkraven_step(sheet.bytes[12], exact, table_cells(), shown, RESULT_CELLS);
}

static uint64_t steps(void)
{
    return checkraven_steps(sheet.bytes[12], exact, table_cells());
}

typedef struct { const char *name; uint64_t (*call)(void); uint64_t answer; } Entry;

static void *on_the_stack(void *entry)
{
    ((Entry *)entry)->answer = ((Entry *)entry)->call();
    return NULL;
}

/* Bytes of the stack that are no longer of the colour, from the deepest one up. */
static size_t used(Entry *entry, uint8_t colour)
{
    pthread_attr_t attributes;
    pthread_t thread;
    size_t kept = 0;
    memset(stack, colour, STACK_BYTES);
    pthread_attr_init(&attributes);
    if (pthread_attr_setstack(&attributes, stack, STACK_BYTES) != 0
        || pthread_create(&thread, &attributes, on_the_stack, entry) != 0) {
        fputs("no thread on a stack of our own\n", stderr);
        exit(1);
    }
    pthread_join(thread, NULL);
    pthread_attr_destroy(&attributes);
    while (kept < STACK_BYTES && stack[kept] == colour)
        kept++;
    return STACK_BYTES - kept;
}

static size_t deeper(Entry *entry)
{
    entry->call();
    size_t one = used(entry, 0xa5), other = used(entry, 0x5a);
    return one > other ? one : other;
}

int main(int count, char **words)
{
    Entry entries[] = {
        {"checkraven_account", account, 0},
        {"checkraven_account_text", account_text, 0},
        {"checkraven_account_bundle", account_bundle, 0},
        {"checkraven_report", report, 0},
        {"checkraven_sheet_from_text", sheet_from_text, 0},
        {"checkraven_text_from_sheet", text_from_sheet, 0},
        {"checkraven_row", row, 0},
        {"checkraven_row_number", row_number, 0},
        {"checkraven_step", step, 0},
        {"checkraven_steps", steps, 0},
    };
    Entry empty = {"nothing", nothing, 0};
    if (count != 6 || posix_memalign((void **)&stack, 4096, STACK_BYTES) != 0)
        return 1;
    load(&own, words[1]);
    load(&book, words[2]);
    load(&fugitive, words[3]);
    load(&sheet, words[4]);
    load(&bundle, words[5]);
    text.length = checkraven_text_from_sheet(sheet.bytes, sheet.length, text.bytes, sizeof text.bytes);
    size_t around = deeper(&empty);
    for (size_t i = 0; i < sizeof entries / sizeof *entries; i++) {
        size_t bytes = deeper(&entries[i]);
        printf("%s %zu %llu\n", entries[i].name, bytes - around, (unsigned long long)entries[i].answer);
    }
    return 0;
}
