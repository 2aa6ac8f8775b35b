/* The call that cuts rations: what it writes is the plan of the sheet at the share that it answers, and the next share
 * has none. */
#include "checks.h"
#include "lent.h"

#include <string.h>

enum { SLOTS = KIWIMOUND_MAX_SLOTS, MOST = KIWIMOUND_MAX_RATIONS, WHOLE = 100 };

/* The numbers of a sheet at a share. */
static kiwimound_reading cut_to(const kiwimound_reading *r, uint32_t share) {
    kiwimound_reading cut = *r;
    for (uint32_t i = 0; i < r->rations; i++) cut.numbers[4 * i + 3] = r->numbers[4 * i + 3] * share / WHOLE;
    return cut;
}

/* Writes the rations of a cut sheet that are fed, since a sheet can't have a volume of 0. Gives its length. */
static size_t write_fed(const kiwimound_reading *cut, uint8_t sheet[KIWIMOUND_SHEET_BYTES(MOST)]) {
    uint32_t numbers[4 * MOST], n = 0;
    for (uint32_t i = 0; i < cut->rations; i++)
        if (cut->numbers[4 * i + 3]) memcpy(numbers + 4 * n++, cut->numbers + 4 * i, 4 * sizeof *numbers);
    kiwimound_written w = kiwimound_write(cut->slots, cut->blowers, cut->wake, n, numbers, 4 * (size_t)n, sheet,
                                          KIWIMOUND_SHEET_BYTES(n));
    if (w.number || w.length != KIWIMOUND_SHEET_BYTES(n)) fail("a cut sheet can't be written");
    return w.length;
}

/* The listing of a held sheet's plan at a share below 100. */
static struct listed check_cut(const kiwimound_reading *r, uint32_t share, const uint8_t *listing, size_t length) {
    static uint8_t sheet[KIWIMOUND_SHEET_BYTES(MOST)], alone[KIWIMOUND_LISTING_BYTES];
    const kiwimound_reading cut = cut_to(r, share), next = cut_to(r, share + 1);
    uint32_t highs[SLOTS];
    for (uint32_t t = 0; t < SLOTS; t++) highs[t] = r->blowers;
    /* A ration of volume 0 has no feed line, and its bit is 0. */
    struct listed listed = check_plan_listing(&cut, highs, listing, length);
    kiwimound_planned p = kiwimound_plan(sheet, write_fed(&cut, sheet), alone, sizeof alone);
    if (p.number || p.line || p.length != length) fail("the cut sheet has no such plan");
    if (memcmp(alone, listing, length)) fail("another plan than that of the cut sheet");
    p = kiwimound_plan_number(sheet, write_fed(&next, sheet));
    if (p.number != 12) fail("a greater share has a plan");
    return listed;
}

uint32_t check_share(const uint8_t *bytes, size_t size, uint32_t choice) {
    static uint8_t whole[KIWIMOUND_LISTING_BYTES];
    uint64_t expected[KIWIMOUND_PLACING_WORDS], words[KIWIMOUND_PLACING_WORDS];
    const uint8_t *sheet = lend_bytes(SHEET, bytes, size);
    const kiwimound_reading r = kiwimound_read(sheet, size);
    size_t one = size_of(KIWIMOUND_LISTING_BYTES, choice), other = size_of(KIWIMOUND_PLACING_WORDS, choice >> 8);

    uint8_t *listing = lend_buffer(LISTING, one);
    uint64_t *placing = lend_words(PLACING, other);
    kiwimound_planned p = kiwimound_plan_both(sheet, size, listing, one, placing, other);
    memcpy(whole, listing, p.length);
    take_back(LISTING, p.length);
    take_words(PLACING, placing, p.number, expected);

    listing = lend_buffer(LISTING, one);
    placing = lend_words(PLACING, other);
    kiwimound_share_answer a = kiwimound_plan_share(sheet, size, listing, one, placing, other);
    if (a.number != (p.number == 12 ? 0 : p.number) || a.line != p.line) fail("plan_share gives another number");
    if (a.number ? a.share || a.length : a.share < 1 || a.share > WHOLE) fail("another share");
    if ((a.share == WHOLE) != (p.number == 0)) fail("a share of 100 without a plan, or a plan without it");
    if (a.share == WHOLE && (a.length != p.length || memcmp(listing, whole, a.length))) fail("another plan at 100");
    if (a.share && a.share < WHOLE) {
        struct listed listed = check_cut(&r, a.share, listing, a.length);
        memcpy(expected, listed.words, sizeof expected);
    }
    take_back(LISTING, a.length);
    if (take_words(PLACING, placing, a.number, words) && memcmp(words, expected, sizeof words))
        fail("another placing than listed at a share");
    take_back(SHEET, size);
    return a.share;
}
