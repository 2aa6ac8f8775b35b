/* The call that plans halls: each hall's answer is counted again, under what the halls before it leave of the limit. */
#include "checks.h"
#include "lent.h"

#include <string.h>

enum { HALLS = KIWIMOUND_MAX_HALLS, SLOTS = KIWIMOUND_MAX_SLOTS, LONGEST = KIWIMOUND_PRACTICE_BYTES };

struct hall {
    const uint8_t *bytes;
    size_t size, listing_bytes, placing_words;
    uint8_t made[LONGEST]; /* of a sheet that is made here */
    /* as lent */
    const uint8_t *sheet;
    uint8_t *listing;
    uint64_t *placing;
};

struct group {
    uint32_t limit, count;
    struct hall halls[HALLS];
};

/* The next choice after one, from 0 to bound - 1. */
static uint32_t next(uint32_t *choice, uint32_t bound) {
    *choice = *choice * 1664525 + 1013904223;
    return (*choice >> 16) % bound;
}

/* A copy of an accepted sheet with less to feed, so that halls after it may be planned too. */
static size_t lighten(const kiwimound_reading *r, uint32_t quarters, uint8_t made[LONGEST]) {
    uint32_t numbers[4 * KIWIMOUND_MAX_RATIONS];
    memcpy(numbers, r->numbers, sizeof numbers);
    for (uint32_t i = 0; i < r->rations; i++) {
        uint32_t *volume = numbers + 4 * i + 3;
        *volume = *volume * quarters / 4 + (*volume * quarters < 4);
    }
    size_t count = 4 * (size_t)r->rations;
    return kiwimound_write(r->slots, r->blowers, r->wake, r->rations, numbers, count, made, LONGEST).length;
}

/* What a hall lends: mostly the sheet or a lighter one, with buffers that are long enough. */
static void choose_hall(struct hall *hall, const uint8_t *sheet, size_t size, const kiwimound_reading *r,
                        uint32_t *choice) {
    uint32_t kind = next(choice, 8);
    hall->bytes = sheet;
    hall->size = size;
    if (kind < 4 && r->number == 0) {
        hall->bytes = hall->made;
        hall->size = lighten(r, next(choice, 4), hall->made);
    } else if (kind > 5) {
        hall->bytes = hall->made;
        hall->size = kiwimound_practice(next(choice, 65536), hall->made, LONGEST).length;
        if (kind == 7) hall->size -= next(choice, 2); /* one byte short in half of the cases */
    }
    bool is_odd = next(choice, 8) == 0;
    hall->listing_bytes = size_of(KIWIMOUND_LISTING_BYTES, is_odd ? next(choice, 65536) : 4);
    hall->placing_words = size_of(KIWIMOUND_PLACING_WORDS, is_odd ? next(choice, 65536) : 4);
}

static void choose_group(struct group *group, const uint8_t *sheet, size_t size, uint32_t choice) {
    static const uint32_t odd[] = {0, KIWIMOUND_MAX_HALLS + 1, KIWIMOUND_MAX_LIMIT + 1, 257, UINT32_MAX};
    const kiwimound_reading r = kiwimound_read(sheet, size);
    for (size_t h = 0; h < HALLS; h++) choose_hall(&group->halls[h], sheet, size, &r, &choice);
    /* A limit that binds two halls of the sheet, most of the time. */
    uint32_t blowers = r.blowers ? r.blowers : KIWIMOUND_MAX_BLOWERS;
    group->limit = 1 + next(&choice, next(&choice, 4) ? 2 * blowers : KIWIMOUND_MAX_LIMIT);
    group->count = 1 + next(&choice, HALLS);
    switch (next(&choice, 32)) {
        case 0: group->limit = odd[next(&choice, 5)]; break; /* 5 is no odd limit */
        case 1: group->count = odd[next(&choice, 5)]; break;
    }
}

/* Where the limit leaves a hall all its blowers, its listing is that of its sheet alone. */
static void check_alone(const struct hall *hall, const kiwimound_planned *p) {
    uint8_t *listing = lend_buffer(LISTING, KIWIMOUND_LISTING_BYTES);
    kiwimound_planned alone = kiwimound_plan(hall->sheet, hall->size, listing, KIWIMOUND_LISTING_BYTES);
    bool is_same = alone.number == p->number && alone.line == p->line && alone.length == p->length;
    if (!is_same || memcmp(listing, hall->listing, p->length)) fail("a hall with all its blowers is planned otherwise");
    take_back(LISTING, alone.length);
}

/* Whether the sheet has a sound placing under highs, by another call. */
static bool has_placing(const struct hall *hall, uint32_t slots, const uint32_t *high) {
    uint32_t low[SLOTS] = {0};
    const uint32_t *lows = lend_numbers(LOWS, low, slots), *highs = lend_numbers(HIGHS, high, slots);
    bool yes = kiwimound_bounds(hall->sheet, hall->size, lows, slots, highs, slots).yes;
    take_back(LOWS, 4 * slots);
    take_back(HIGHS, 4 * slots);
    return yes;
}

/* A hall that is there, where the halls before it leave so much in each slot; takes from that what it uses. */
static enum fate check_hall(size_t h, const struct hall *hall, const kiwimound_planned *p, uint32_t left[SLOTS]) {
    const kiwimound_reading r = kiwimound_read(hall->sheet, hall->size);
    bool is_short = hall->listing_bytes < KIWIMOUND_LISTING_BYTES || hall->placing_words < KIWIMOUND_PLACING_WORDS;
    bool has_all = true;
    uint32_t highs[SLOTS], expected = r.number ? r.number : 10;
    for (uint32_t t = 0; t < SLOTS; t++) {
        highs[t] = left[t] < r.blowers ? left[t] : r.blowers;
        has_all = has_all && (t >= r.slots || highs[t] == r.blowers);
    }
    if (!r.number && !is_short) expected = has_placing(hall, r.slots, highs) ? 0 : 12;
    if (p->number != expected || p->line != r.line) fail("a hall gets another number");
    struct listed listed = {0};
    if (expected == 0) listed = check_plan_listing(&r, highs, hall->listing, p->length);
    if (expected == 12) listed = check_held_listing(&r, highs, hall->listing, p->length);
    bool is_listed = expected == 0 || expected == 12;
    if (!is_listed && p->length) fail("a refused hall has a length");
    if (is_listed && has_all) check_alone(hall, p);
    uint64_t words[KIWIMOUND_PLACING_WORDS];
    take_back(HALL_LISTING + h, p->length);
    if (take_words(HALL_PLACING + h, hall->placing, expected, words) && memcmp(words, listed.words, sizeof words))
        fail("a hall has another placing than listed");
    for (uint32_t t = 0; t < SLOTS; t++) left[t] -= listed.counts[t]; /* no more than its high, as was checked */
    return expected == 0 ? PLANNED : expected == 12 ? HELD : REFUSED;
}

uint32_t check_halls(const uint8_t *bytes, size_t size, uint32_t choice) {
    static struct group group;
    choose_group(&group, bytes, size, choice);
    for (size_t h = 0; h < HALLS; h++) {
        struct hall *hall = &group.halls[h];
        hall->sheet = lend_bytes(HALL_SHEET + h, hall->bytes, hall->size);
        hall->listing = lend_buffer(HALL_LISTING + h, hall->listing_bytes);
        hall->placing = lend_words(HALL_PLACING + h, hall->placing_words);
    }
#define LEND(h) \
    group.halls[h].sheet, group.halls[h].size, group.halls[h].listing, group.halls[h].listing_bytes, \
        group.halls[h].placing, group.halls[h].placing_words
    kiwimound_halls a = kiwimound_plan_halls(group.limit, group.count, LEND(0), LEND(1), LEND(2), LEND(3));
#undef LEND
    bool is_refused = group.limit < 1 || group.limit > KIWIMOUND_MAX_LIMIT || group.count < 1 || group.count > HALLS;
    if (a.number != (is_refused ? 14 : 0) || a.line) fail("plan_halls gives another number");
    uint32_t left[SLOTS], fates = 0;
    for (size_t t = 0; t < SLOTS; t++) left[t] = group.limit;
    for (size_t h = 0; h < HALLS; h++) {
        const kiwimound_planned *p = &a.hall[h];
        enum fate fate = ABSENT;
        if (!is_refused && h < group.count) {
            fate = check_hall(h, &group.halls[h], p, left);
        } else {
            if (p->number || p->line || p->length) fail("a hall that is not there has an answer");
            take_back(HALL_LISTING + h, 0);
            take_back(HALL_PLACING + h, 0);
        }
        fates = 4 * fates + fate;
        take_back(HALL_SHEET + h, group.halls[h].size);
    }
    return fates;
}
