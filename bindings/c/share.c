/* Plans the feed sheet in a file, or on standard input, with its rations equally cut, so far as they must be. Prints
 * the share of the volumes that is fed, in a hundred, and then for each ration how many of its feedings are kept.
 *
 *     share SHEET        share < SHEET
 *
 * Exit status: 0 planned, whole or cut, 1 refused, 2 the file can't be read or the answer not written. */
#include "files.h"
#include "kiwimound.h"

#include <stdio.h>

static uint8_t sheet[SHEET_ROOM];
static uint8_t listing[KIWIMOUND_LISTING_BYTES];
static uint64_t placing[KIWIMOUND_PLACING_WORDS];

/* In how many slots a ration, from 0, is fed. One that is cut to 0 still has its bit, which is 0 in every word. */
static unsigned fed(size_t ration)
{
    unsigned feedings = 0;
    for (size_t slot = 0; slot < KIWIMOUND_MAX_SLOTS; slot++)
        feedings += (unsigned)(placing[slot] >> ration & 1);
    return feedings;
}

static void print_kept(size_t length)
{
    const kiwimound_reading reading = kiwimound_read(sheet, length);
    for (size_t i = 0; i < reading.rations; i++) {
        const uint32_t *ration = reading.numbers + 4 * i; /* tank, first slot, last slot, volume */
        printf("tank %u slots %u to %u: %u of %u\n", (unsigned)ration[0], (unsigned)ration[1], (unsigned)ration[2],
               fed(i), (unsigned)ration[3]);
    }
}

int main(int argc, char **argv)
{
    size_t length;
    if (argc > 2) {
        fprintf(stderr, "usage: %s [SHEET]\n", argv[0]);
        return 2;
    }
    if (!read_sheet(argc == 2 ? argv[1] : NULL, sheet, &length))
        return 2;
    const kiwimound_share_answer planned =
        kiwimound_plan_share(sheet, length, listing, sizeof listing, placing, KIWIMOUND_PLACING_WORDS);
    if (planned.number != KIWIMOUND_ACCEPTED) {
        printf("refused: number %u, line %u\n", (unsigned)planned.number, (unsigned)planned.line);
        return exit_status(1);
    }
    printf("share %u\n", (unsigned)planned.share);
    print_kept(length);
    return exit_status(0);
}
