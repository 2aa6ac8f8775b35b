/* Plans the feed sheet in a file, or on standard input, and prints what a crew asks first: when each blower is idle,
 * whether it is switched off meanwhile, and what the day costs. For a held sheet: the slots that show why, with the
 * feedings forced into them and those that the blowers can make there.
 *
 *     idle SHEET        idle < SHEET
 *
 * Exit status: 0 planned, 1 held or refused, 2 the file can't be read or the answer not written. */
#include "files.h"
#include "kiwimound.h"
#include "listing.h"

#include <stdio.h>

enum { IDLE_OFF = 0, IDLE_ON = 1 }; /* states of a stretch; 2 is busy */

static uint8_t sheet[SHEET_ROOM];
static uint8_t listing[KIWIMOUND_LISTING_BYTES];

static void print_idle(void)
{
    const size_t stretches = field(listing, 0, 2);
    for (size_t i = 1; i <= stretches; i++) {
        const unsigned blower = field(listing, i, 0), first = field(listing, i, 1), last = field(listing, i, 2);
        const unsigned state = field(listing, i, 3);
        if (state == IDLE_OFF || state == IDLE_ON)
            printf("blower %u idle %u to %u %s\n", blower, first, last, state == IDLE_OFF ? "off" : "on");
    }
}

int main(int argc, char **argv)
{
    size_t length;
    if (argc > 2) {
        fprintf(stderr, "usage: %s [SHEET]\n", argv[0]);
        return 2;
    }
    if (!read_sheet(argc == 2 ? argv[1] : NULL, sheet, &length))
        return 2;
    const kiwimound_planned planned = kiwimound_plan(sheet, length, listing, sizeof listing);
    if (planned.number == KIWIMOUND_ACCEPTED) {
        print_idle();
        print_bill(listing);
        return exit_status(0);
    }
    print_unplanned(planned, listing);
    return exit_status(1);
}
