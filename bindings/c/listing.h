/* The numbers in a listing, for the examples. */
#ifndef LISTING_H
#define LISTING_H

#include "kiwimound.h"

#include <stdio.h>

/* `PLAN` or `HELD` and byte 10; then lines of four fields. */
enum { OPENING_BYTES = 5 };

/* Field f of line i of a listing, both from 0: blanks, then digits. */
static unsigned field(const uint8_t *listing, size_t i, size_t f)
{
    const uint8_t *text = listing + OPENING_BYTES + i * KIWIMOUND_LINE_BYTES + f * KIWIMOUND_FIELD_COLUMNS;
    unsigned value = 0;
    for (size_t c = 0; c < KIWIMOUND_FIELD_COLUMNS; c++)
        if (text[c] != ' ')
            value = value * 10 + (unsigned)(text[c] - '0');
    return value;
}

/* The bill is a plan's last line, after the stretch lines and the feed lines that the first line counts. */
static void print_bill(const uint8_t *listing)
{
    const size_t last = 1 + field(listing, 0, 2) + field(listing, 0, 3);
    printf("bill %u cents\n", 100 * field(listing, last, 0) + field(listing, last, 1));
}

/* Why there is no plan: the slots of a held sheet's listing, or the refusal. */
static void print_unplanned(kiwimound_planned planned, const uint8_t *listing)
{
    if (planned.number != KIWIMOUND_HELD) {
        printf("refused: number %u, line %u\n", (unsigned)planned.number, (unsigned)planned.line);
        return;
    }
    const size_t slots = field(listing, 0, 1);
    printf("held: forced %u, capacity %u, slots", field(listing, 0, 2), field(listing, 0, 3));
    for (size_t i = 1; i <= slots; i++)
        printf(" %u", field(listing, i, 0));
    printf("\n");
}

#endif
