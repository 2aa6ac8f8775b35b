/* A line of a sheet or of a listing: four numbers, each in its columns, and byte 10. */
#include "checks.h"
#include "lent.h"

#include <stdio.h>
#include <stdlib.h>
#include <string.h>

enum { COLUMNS = KIWIMOUND_FIELD_COLUMNS, LINE = KIWIMOUND_LINE_BYTES };

_Static_assert(LINE == 4 * COLUMNS + 1, "a line has four fields and byte 10");

bool numbers_of(const uint8_t *line, uint32_t numbers[4]) {
    for (int i = 0; i < 4; i++) {
        char field[COLUMNS + 1] = {0};
        memcpy(field, line + COLUMNS * i, COLUMNS);
        /* Where there is a sign, or no number, the line is not the same when it is written. */
        unsigned long number = strtoul(field, NULL, 10);
        if (number > UINT32_MAX) return false;
        numbers[i] = (uint32_t)number;
    }
    uint8_t again[LINE];
    put_line(again, numbers);
    return memcmp(again, line, LINE) == 0;
}

void read_line(const uint8_t *line, uint32_t numbers[4]) {
    if (!numbers_of(line, numbers)) fail("a line in another form");
}

void put_line(uint8_t *line, const uint32_t numbers[4]) {
    char text[4 * 10 + 2]; /* room for any numbers, though a line has none that is too wide */
    const uint32_t *v = numbers;
    snprintf(text, sizeof text, "%*u%*u%*u%*u\n", COLUMNS, v[0], COLUMNS, v[1], COLUMNS, v[2], COLUMNS, v[3]);
    memcpy(line, text, LINE);
}
