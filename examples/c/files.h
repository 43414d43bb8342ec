/* What all examples need: reading a file. */
#ifndef FILES_H
#define FILES_H

#include "checkraven.h"

#include <errno.h>
#include <stdio.h>
#include <string.h>

/* One byte more than the limit, so that a longer file is still refused. */
#define ROOM_FOR_A_FILE 65537

/* A file that could not be opened counts as empty. */
static size_t read_open(FILE *file, uint8_t *bytes)
{
    if (file == NULL)
        return 0;
    size_t length = fread(bytes, 1, ROOM_FOR_A_FILE, file);
    fclose(file);
    return length;
}

static size_t read_file(const char *path, uint8_t *bytes)
{
    return read_open(fopen(path, "rb"), bytes);
}

/* A works that holds no factors of its own has no such file: a book without rows
 * stands for it. */
static size_t read_own(const char *path, uint8_t *bytes)
{
    FILE *file = fopen(path, "rb");
    if (file == NULL && errno == ENOENT) {
        memcpy(bytes, checkraven_no_own, sizeof checkraven_no_own);
        return sizeof checkraven_no_own;
    }
    return read_open(file, bytes);
}

#endif
