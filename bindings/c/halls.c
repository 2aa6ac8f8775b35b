/* Plans the feed sheets of up to four halls on one fuse. Prints for each hall, in the order in which they are planned,
 * its bill or why it has no plan; then, for the slots in which blowers are busy, how many of each hall.
 *
 *     halls LIMIT SHEET..
 *
 * Exit status: 0 every hall is planned, 1 one is held or refused or all are, 2 a file can't be read or the answer not
 * written. */
#include "files.h"
#include "kiwimound.h"
#include "listing.h"

#include <stdio.h>
#include <stdlib.h>

/* What a hall lends. One that is not there lends lengths of 0. */
struct hall {
    uint8_t sheet[SHEET_ROOM];
    size_t sheet_length;
    uint8_t listing[KIWIMOUND_LISTING_BYTES];
    size_t listing_length;
    uint64_t placing[KIWIMOUND_PLACING_WORDS]; /* a hall that is not planned leaves all of it 0 */
    size_t placing_words;
};

static struct hall halls[KIWIMOUND_MAX_HALLS];

/* Six arguments of the call. */
#define LEND(hall) \
    (hall).sheet, (hall).sheet_length, (hall).listing, (hall).listing_length, (hall).placing, (hall).placing_words

static bool read_hall(struct hall *hall, const char *path)
{
    hall->listing_length = sizeof hall->listing;
    hall->placing_words = KIWIMOUND_PLACING_WORDS;
    return read_sheet(path, hall->sheet, &hall->sheet_length);
}

/* How many blowers of a hall are busy in a slot, from 0: as many as it feeds rations there. */
static unsigned busy_in(const struct hall *hall, size_t slot)
{
    unsigned busy = 0;
    for (uint64_t word = hall->placing[slot]; word != 0; word &= word - 1)
        busy++;
    return busy;
}

static bool are_alike(size_t count, size_t slot, size_t other)
{
    for (size_t h = 0; h < count; h++)
        if (busy_in(&halls[h], slot) != busy_in(&halls[h], other))
            return false;
    return true;
}

/* A line for each run of slots in which every hall has as many busy blowers, and some hall has any. */
static void print_busy(size_t count, uint32_t limit)
{
    for (size_t first = 0, next; first < KIWIMOUND_MAX_SLOTS; first = next) {
        unsigned all = 0;
        for (size_t h = 0; h < count; h++)
            all += busy_in(&halls[h], first);
        for (next = first + 1; next < KIWIMOUND_MAX_SLOTS && are_alike(count, first, next);)
            next++;
        if (all == 0)
            continue;
        printf("slots %zu to %zu busy", first + 1, next);
        for (size_t h = 0; h < count; h++)
            printf(" %s%u", h == 0 ? "" : "+ ", busy_in(&halls[h], first));
        printf(" = %u of %u\n", all, (unsigned)limit);
    }
}

int main(int argc, char **argv)
{
    char *end = NULL;
    const unsigned long limit = argc < 3 ? 0 : strtoul(argv[1], &end, 10);
    if (argc < 3 || end == argv[1] || *end != '\0' || limit > UINT32_MAX) {
        fprintf(stderr, "usage: %s LIMIT SHEET..\n", argv[0]);
        return 2;
    }
    const size_t count = (size_t)argc - 2;
    for (size_t h = 0; h < count && h < KIWIMOUND_MAX_HALLS; h++)
        if (!read_hall(&halls[h], argv[2 + h]))
            return 2;
    const kiwimound_halls planned = kiwimound_plan_halls((uint32_t)limit, (uint32_t)count, LEND(halls[0]),
                                                         LEND(halls[1]), LEND(halls[2]), LEND(halls[3]));
    if (planned.number != KIWIMOUND_ACCEPTED) {
        printf("refused: number %u, line %u\n", (unsigned)planned.number, (unsigned)planned.line);
        return exit_status(1);
    }
    int status = 0;
    for (size_t h = 0; h < count; h++) {
        printf("hall %zu: ", h + 1);
        if (planned.hall[h].number == KIWIMOUND_ACCEPTED) {
            print_bill(halls[h].listing);
        } else {
            print_unplanned(planned.hall[h], halls[h].listing);
            status = 1;
        }
    }
    print_busy(count, (uint32_t)limit);
    return exit_status(status);
}
