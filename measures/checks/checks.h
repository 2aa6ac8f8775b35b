/* What must hold of the calls' answers on any bytes, looked at from outside. */
#ifndef CHECKS_H
#define CHECKS_H

#include "kiwimound.h"
#include "lent.h"

#include <stdbool.h>

struct refusal {
    uint32_t number, line;
};

/* The first of the checks 3 to 9 and 13 that a head line's numbers and flat rations fail, or 0. */
struct refusal refusal_of(const uint32_t head[4], const uint32_t *flat, size_t count);

/* The reading calls: read, find, write, also from records. `choice` picks the tanks asked for and the sizes lent.
 * Gives the number of the reading. */
uint32_t check_reading(const uint8_t *sheet, size_t size, uint32_t choice);

/* The practice sheet of a seed, with buffers too short, just long enough and longer. Gives how many rations it has. */
uint32_t check_practice(uint32_t seed);

/* What a listing says: of a plan its feedings, as words and as counts; of a held sheet the slots shown, marked 1, and
 * their shortfall. All else is 0. */
struct listed {
    uint32_t energy, cents, stretches, feeds, shown;
    uint64_t words[KIWIMOUND_PLACING_WORDS];
    uint32_t counts[KIWIMOUND_MAX_SLOTS];
    uint8_t marks[KIWIMOUND_MAX_SLOTS];
    int32_t shortfall;
};

/* The listing of a plan, and that of a held sheet, where each slot has a high. */
struct listed check_plan_listing(const kiwimound_reading *sheet, const uint32_t *highs, const uint8_t *listing,
                                 size_t length);
struct listed check_held_listing(const kiwimound_reading *sheet, const uint32_t *highs, const uint8_t *listing,
                                 size_t length);

/* How long a buffer is lent: not at all, one byte or word too short, just long enough or longer. */
size_t size_of(size_t least, uint32_t choice);

/* Takes a placing buffer back. Numbers 0 and 12 have written its first words: says so, and copies them. */
bool take_words(enum place place, const uint64_t *placing, uint32_t number, uint64_t words[KIWIMOUND_PLACING_WORDS]);

/* What planning came to; of causes, how many lines were listed. */
struct outcome {
    uint32_t number, energy, cents, stretches, feeds, shown, causes;
};

/* The planning calls, compare, causes, shortfall and bounds, and those on records. `choice` picks the sizes lent. */
struct outcome check_planning(const uint8_t *sheet, size_t size, uint32_t choice);

/* Planning and the questions on the rations of an accepted sheet as records, or on changed ones as `choice` says;
 * with a plan buffer of so many bytes and a placing buffer of so many words. */
void check_records(const kiwimound_reading *sheet, uint32_t choice, size_t listing_size, size_t placing_words);

/* Listing causes, with a buffer of that size, of a sheet whose planning gives this number. `counts` has how many
 * feedings each slot of the plan holds, or is NULL where that is not known. Gives how many lines were listed. */
uint32_t check_causes(const uint8_t *sheet, size_t size, const kiwimound_reading *r, uint32_t number, const uint32_t *counts, size_t lent);

/* What becomes of a hall. */
enum fate { ABSENT, PLANNED, HELD, REFUSED };

/* Planning halls: the sheet, lighter copies of it and practice sheets behind a limit, as `choice` says. Gives the fate
 * of each hall, in two bits. */
uint32_t check_halls(const uint8_t *sheet, size_t size, uint32_t choice);

/* Planning a sheet with its rations cut, held to planning as it is. `choice` picks the sizes lent. Gives the share. */
uint32_t check_share(const uint8_t *sheet, size_t size, uint32_t choice);

/* The four numbers of a line, where writing them gives the line again; else no. */
bool numbers_of(const uint8_t *line, uint32_t numbers[4]);

/* The four numbers of a line that the library wrote; it must be in the stated form. */
void read_line(const uint8_t *line, uint32_t numbers[4]);

/* Writes four numbers as a line. */
void put_line(uint8_t *line, const uint32_t numbers[4]);

#endif
