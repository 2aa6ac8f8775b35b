/* The planning calls, and the questions about what they answer. */
#include "checks.h"
#include "lent.h"

#include <stdbool.h>
#include <string.h>

enum { SLOTS = KIWIMOUND_MAX_SLOTS, PLACING_WORDS = KIWIMOUND_PLACING_WORDS };

/* shortfall and bounds on an accepted sheet; lists of other lengths are refused. */
static void check_questions(const uint8_t *sheet, size_t size, const kiwimound_reading *r, uint32_t number,
                            const struct listed *listed) {
    const uint8_t *m = lend_bytes(MARKS, listed->marks, r->slots);
    kiwimound_shortfall_answer s = kiwimound_shortfall(sheet, size, m, r->slots);
    if (s.number || s.line) fail("shortfall refuses");
    if (number == 12 && s.shortfall != listed->shortfall) fail("another shortfall");
    if (number == 0 && s.shortfall > 0) fail("a shortfall above zero on a planned sheet");
    s = kiwimound_shortfall(sheet, size, m, r->slots - 1);
    if (s.number != 11 || s.line || s.shortfall) fail("a short list of marks");
    take_back(MARKS, r->slots);
    uint32_t high[SLOTS];
    for (uint32_t t = 0; t < r->slots; t++) high[t] = number ? UINT32_MAX : listed->counts[t];
    const uint32_t *lows = lend_numbers(LOWS, listed->counts, r->slots), *highs = lend_numbers(HIGHS, high, r->slots);
    kiwimound_bounds_answer b = kiwimound_bounds(sheet, size, lows, r->slots, highs, r->slots);
    if (b.number || b.line || b.yes != (number == 0)) fail("another answer under bounds");
    b = kiwimound_bounds(sheet, size, lows, r->slots - 1, highs, r->slots);
    if (b.number != 11 || b.line || b.yes) fail("a short list of bounds");
    take_back(LOWS, 4 * r->slots);
    take_back(HIGHS, 4 * r->slots);
}

size_t size_of(size_t least, uint32_t choice) {
    size_t sizes[] = {least, least - 1, least + choice / 4 % 50, 0};
    return sizes[choice % 8 > 3 ? 0 : choice % 4];
}

bool take_words(enum place place, const uint64_t *placing, uint32_t number, uint64_t words[PLACING_WORDS]) {
    bool are_written = number == 0 || number == 12;
    size_t written = are_written ? sizeof *words * PLACING_WORDS : 0;
    memcpy(words, placing, written);
    take_back(place, written);
    return are_written;
}

struct outcome check_planning(const uint8_t *bytes, size_t size, uint32_t choice) {
    const uint8_t *sheet = lend_bytes(SHEET, bytes, size);
    kiwimound_reading r = kiwimound_read(sheet, size);
    size_t one = size_of(KIWIMOUND_LISTING_BYTES, choice), other = size_of(PLACING_WORDS, choice >> 8);
    bool short_one = one < KIWIMOUND_LISTING_BYTES, short_other = other < PLACING_WORDS;
    uint32_t number = kiwimound_plan_number(sheet, size).number;
    if (r.number ? number != r.number : number != 0 && number != 12) fail("another number");
    bool planned = number == 0 || number == 12;

    uint8_t *listing = lend_buffer(LISTING, one);
    uint64_t *placing = lend_words(PLACING, other);
    uint64_t both[PLACING_WORDS] = {0}, alone[PLACING_WORDS] = {0};
    kiwimound_planned p = kiwimound_plan_both(sheet, size, listing, one, placing, other);
    uint32_t expected = r.number ? r.number : short_one || short_other ? 10 : number;
    if (p.number != expected || p.line != r.line) fail("plan_both gives another number");
    if (expected != number && p.length) fail("a refusal with a length");
    take_back(LISTING, p.length);
    bool has_both = take_words(PLACING, placing, expected, both);

    placing = lend_words(PLACING, other);
    p = kiwimound_plan_placing(sheet, size, placing, other);
    expected = r.number ? r.number : short_other ? 10 : number;
    if (p.number != expected || p.line != r.line || p.length) fail("plan_placing gives another number");
    bool has_alone = take_words(PLACING, placing, expected, alone);

    struct listed listed = {0};
    uint32_t highs[SLOTS];
    for (uint32_t t = 0; t < SLOTS; t++) highs[t] = r.blowers;
    listing = lend_buffer(LISTING, one);
    p = kiwimound_plan(sheet, size, listing, one);
    expected = r.number ? r.number : short_one ? 10 : number;
    if (p.number != expected || p.line != r.line) fail("plan gives another number");
    bool is_listed = expected == 0 || expected == 12;
    if (expected == 0) listed = check_plan_listing(&r, highs, listing, p.length);
    if (expected == 12) listed = check_held_listing(&r, highs, listing, p.length);
    if (!is_listed && p.length) fail("a refusal with a length");
    if (is_listed && has_alone && memcmp(alone, listed.words, sizeof alone)) fail("another placing than listed");
    if (is_listed && has_both && memcmp(both, listed.words, sizeof both)) fail("another placing than listed beside it");
    /* On a planned sheet any slots may be marked. */
    for (uint32_t t = 0; number == 0 && t < r.slots; t++) listed.marks[t] = choice >> t % 32 & 1;
    if (planned && expected == number) check_questions(sheet, size, &r, number, &listed);
    take_back(LISTING, p.length);
    uint32_t causes = check_causes(sheet, size, &r, number, expected == 0 ? listed.counts : NULL,
                                   size_of(KIWIMOUND_CAUSES_BYTES, choice >> 16));
    if (r.number == 0) check_records(&r, choice, one, other);

    const uint8_t *second = lend_bytes(SECOND, bytes, size);
    kiwimound_compared c = kiwimound_compare(sheet, size, second, size);
    uint32_t order = number ? KIWIMOUND_ORDER_NO : KIWIMOUND_ORDER_SAME;
    if (c.number != number || c.line != r.line || c.order != order) fail("a sheet compared with itself");
    take_back(SECOND, size);
    take_back(SHEET, size);
    return (struct outcome){number, listed.energy, listed.cents, listed.stretches, listed.feeds, listed.shown, causes};
}
