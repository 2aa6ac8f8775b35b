/* A sheet from a file, and whether what was printed is written, for the examples. */
#ifndef FILES_H
#define FILES_H

#include "kiwimound.h"

#include <stdbool.h>
#include <stdio.h>

/* Room for a sheet, with one byte more than 65,520: a longer file is then refused by its length. */
enum { SHEET_ROOM = KIWIMOUND_MAX_SHEET_BYTES + 1 };

/* Reads the file of this name, or standard input where there is none. */
static bool read_sheet(const char *path, uint8_t sheet[SHEET_ROOM], size_t *length)
{
    const char *name = path == NULL ? "standard input" : path;
    FILE *in = path == NULL ? stdin : fopen(path, "rb");
    if (in == NULL) {
        perror(name);
        return false;
    }
    *length = fread(sheet, 1, SHEET_ROOM, in);
    const bool is_read = !ferror(in);
    if (!is_read)
        perror(name);
    fclose(in);
    return is_read;
}

/* This status, or 2 where what was printed could not be written. */
static int exit_status(int status)
{
    if (fflush(stdout) == 0 && !ferror(stdout))
        return status;
    perror("writing the answer");
    return 2;
}

#endif
