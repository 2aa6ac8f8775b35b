/* The calls on records: what writing refuses, each of them refuses; to any other day each answers what the call on its sheet does. */
#include "checks.h"
#include "lent.h"

#include <stdbool.h>
#include <string.h>

enum { LINE = KIWIMOUND_LINE_BYTES, SLOTS = KIWIMOUND_MAX_SLOTS, MOST = KIWIMOUND_MAX_RATIONS + 2 };

/* A day by its numbers and rations, and the sheet of it where there is one. */
struct day {
    uint32_t head[4], flat[4 * MOST];
    struct refusal refusal;
    uint8_t sheet[KIWIMOUND_SHEET_BYTES(KIWIMOUND_MAX_RATIONS)];
    size_t size;
};

/* The sheet's own rations, or one number changed, or a ration with the tank before it, or more rations than can be. */
static void choose(struct day *day, const kiwimound_reading *r, uint32_t choice) {
    uint32_t head[4] = {r->slots, r->blowers, r->wake, r->rations}, number = choice >> 16 & 1 ? choice >> 17 : choice >> 26;
    memcpy(day->flat, r->numbers, sizeof r->numbers);
    switch (choice / 16 % 8) {
        case 0: head[choice / 128 % 3] = number; break;
        case 1: head[3] = MOST - choice / 128 % 2; break;
        case 2:
        case 3:
            if (head[3]) day->flat[choice / 128 % (4 * head[3])] = number;
            break;
        case 4:
            if (head[3] > 1) {
                uint32_t *tank = day->flat + 4 * (1 + choice / 128 % (head[3] - 1));
                *tank = *(tank - 4);
            }
            break;
    }
    memcpy(day->head, head, sizeof head);
    day->refusal = refusal_of(head, day->flat, 4 * (size_t)head[3]);
    if (day->refusal.number) return;
    day->size = KIWIMOUND_SHEET_BYTES(head[3]);
    for (uint32_t i = 0; i <= head[3]; i++) put_line(day->sheet + LINE * i, i ? day->flat + 4 * (i - 1) : head);
}

/* What planning answered and wrote. */
struct plan {
    kiwimound_planned answer;
    uint8_t listing[KIWIMOUND_LISTING_BYTES];
    uint64_t placing[KIWIMOUND_PLACING_WORDS];
    size_t placed; /* bytes of the placing */
};

/* In place of the words of a placing buffer: none is lent. */
static const size_t NONE = SIZE_MAX;

/* Plans the rations, or the sheet where it is lent none. */
static void plan(struct plan *plan, const struct day *day, const kiwimound_ration *rations, size_t one, size_t other) {
    const uint32_t *h = day->head;
    bool both = other != NONE;
    uint8_t *listing = lend_buffer(LISTING, one);
    uint64_t *placing = lend_words(PLACING, both ? other : 0);
    if (rations)
        plan->answer = both ? kiwimound_plan_rations_both(h[0], h[1], h[2], rations, h[3], listing, one, placing, other)
                            : kiwimound_plan_rations(h[0], h[1], h[2], rations, h[3], listing, one);
    else
        plan->answer = both ? kiwimound_plan_both(day->sheet, day->size, listing, one, placing, other) : kiwimound_plan(day->sheet, day->size, listing, one);
    plan->placed = both && (plan->answer.number == 0 || plan->answer.number == 12) ? sizeof plan->placing : 0;
    memcpy(plan->listing, listing, plan->answer.length);
    memcpy(plan->placing, placing, plan->placed);
    take_back(LISTING, plan->answer.length);
    take_back(PLACING, plan->placed);
}

static void check_plan(const struct day *day, const kiwimound_ration *rations, size_t one, size_t other) {
    static struct plan expected, got;
    expected.answer = (kiwimound_planned){day->refusal.number, day->refusal.line, 0};
    expected.placed = 0;
    if (!day->refusal.number) plan(&expected, day, NULL, one, other);
    plan(&got, day, rations, one, other);
    kiwimound_planned a = expected.answer, b = got.answer;
    if (a.number != b.number || a.line != b.line || a.length != b.length) fail("records are planned otherwise");
    if (memcmp(expected.listing, got.listing, a.length) || memcmp(expected.placing, got.placing, expected.placed)) fail("another plan of records");
}

/* The questions, with lists one too short, as long as the day, and one too long. */
static void check_asked(const struct day *day, const kiwimound_ration *rations, uint32_t choice) {
    const uint32_t *h = day->head;
    bool refused = day->refusal.number != 0;
    size_t slots = refused ? 3 : h[0];
    uint8_t marks[SLOTS + 1];
    uint32_t low[SLOTS + 1], high[SLOTS + 1];
    for (size_t t = 0; t <= slots; t++) {
        marks[t] = choice >> t % 32 & 1;
        low[t] = choice >> t % 29 & choice >> t % 7 & 1;
        high[t] = choice >> t % 28 & 15;
    }
    for (size_t count = slots - 1; count <= slots + 1; count++) {
        const uint8_t *m = lend_bytes(MARKS, marks, count);
        const uint32_t *lows = lend_numbers(LOWS, low, count), *highs = lend_numbers(HIGHS, high, slots);
        kiwimound_shortfall_answer s = {day->refusal.number, day->refusal.line, 0}, t = kiwimound_shortfall_rations(h[0], h[1], h[2], rations, h[3], m, count);
        kiwimound_bounds_answer b = {day->refusal.number, day->refusal.line, false},
                                c = kiwimound_bounds_rations(h[0], h[1], h[2], rations, h[3], lows, count, highs, slots);
        if (!refused) {
            s = kiwimound_shortfall(day->sheet, day->size, m, count);
            b = kiwimound_bounds(day->sheet, day->size, lows, count, highs, slots);
        }
        if (t.number != s.number || t.line != s.line || t.shortfall != s.shortfall) fail("another shortfall of records");
        if (c.number != b.number || c.line != b.line || c.yes != b.yes) fail("another answer under bounds of records");
        take_back(MARKS, count);
        take_back(LOWS, 4 * count);
        take_back(HIGHS, 4 * slots);
    }
}

void check_records(const kiwimound_reading *r, uint32_t choice, size_t one, size_t other) {
    static struct day day;
    memset(&day, 0, sizeof day);
    choose(&day, r, choice);
    /* A record is four numbers in a row. */
    size_t size = sizeof(kiwimound_ration) * day.head[3];
    const kiwimound_ration *rations = (const kiwimound_ration *)(const void *)lend_bytes(NUMBERS, day.flat, size);
    check_plan(&day, rations, one, NONE);
    check_plan(&day, rations, one, other);
    check_asked(&day, rations, choice);
    take_back(NUMBERS, size);
}
