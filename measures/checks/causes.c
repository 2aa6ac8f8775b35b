/* The call that lists causes: its entries are those of the plan's own stretches, and each set is one that shows its
 * cause. */
#include "checks.h"
#include "lent.h"

#include <stdbool.h>

enum { LINE = KIWIMOUND_LINE_BYTES, SLOTS = KIWIMOUND_MAX_SLOTS, MOST_LINES = KIWIMOUND_CAUSES_BYTES / LINE };

/* How many feedings each slot has to hold, and may hold. */
struct bounds {
    uint32_t low[SLOTS], high[SLOTS];
};

struct stretch {
    uint32_t blower, first, last;
    bool busy;
};

/* The lines of a listing, and how many of them were looked at. */
struct lines {
    const uint8_t *listing;
    size_t count, seen;
};

static void next_line(struct lines *lines, uint32_t numbers[4]) {
    if (lines->seen == lines->count) fail("an entry without all its lines");
    read_line(lines->listing + LINE * lines->seen++, numbers);
}

/* Sets what a stretch asks for in its slots, were `last` the last of them. */
static void keep(struct bounds *b, const struct stretch *s, uint32_t last) {
    for (uint32_t t = s->first - 1; t < last; t++) {
        if (!s->busy)
            b->high[t] = s->blower - 1;
        else if (b->low[t] < s->blower)
            b->low[t] = s->blower;
    }
}

/* The lowest slot whose low is above its high, or 0. */
static uint32_t crossed_slot(const struct bounds *b, uint32_t slots) {
    for (uint32_t t = 0; t < slots; t++)
        if (b->low[t] > b->high[t]) return t + 1;
    return 0;
}

/* More is forced into the marked slots than their highs, or less is possible in them than their lows. The difference
 * must be less without any one of them, and no greater with any one slot more: a set that is contained in every set of
 * greatest shortfall, or excess, has both. */
static void check_set(const kiwimound_reading *r, const struct bounds *b, const uint8_t *marks, bool is_shortfall) {
    const uint32_t *bound = is_shortfall ? b->high : b->low;
    uint32_t feedings = 0, bounds = 0, change[SLOTS] = {0}; /* of feedings, as this slot is dropped or added */
    for (uint32_t j = 0; j < r->rations; j++) {
        const uint32_t *ration = r->numbers + 4 * j, volume = ration[3];
        uint32_t inside = 0, outside = 0;
        for (uint32_t t = ration[1] - 1; t < ration[2]; t++) marks[t] ? inside++ : outside++;
        if (is_shortfall)
            feedings += volume > outside ? volume - outside : 0;
        else
            feedings += volume < inside ? volume : inside;
        for (uint32_t t = ration[1] - 1; t < ration[2]; t++) {
            if (is_shortfall)
                change[t] += marks[t] ? volume > outside : volume >= outside;
            else
                change[t] += marks[t] ? volume >= inside : volume > inside;
        }
    }
    for (uint32_t t = 0; t < r->slots; t++) {
        bounds += marks[t] ? bound[t] : 0;
        if (is_shortfall && (marks[t] ? change[t] <= bound[t] : change[t] > bound[t])) fail("not the least set of greatest shortfall");
        if (!is_shortfall && (marks[t] ? change[t] >= bound[t] : change[t] < bound[t])) fail("not the least set of greatest excess");
    }
    if (is_shortfall ? feedings <= bounds : feedings >= bounds) fail("a set that is no cause");
}

/* The entry of a stretch, under the bounds with the stretch one slot longer. */
static void check_entry(const kiwimound_reading *r, const struct bounds *longer, const struct stretch *s, struct lines *lines) {
    uint32_t head[4], before = 0, crossed = crossed_slot(longer, r->slots);
    uint8_t marks[SLOTS] = {0};
    next_line(lines, head);
    if (head[0] != s->blower || head[1] != s->last) fail("an entry of another stretch");
    for (uint32_t i = 0; i < head[3]; i++) {
        uint32_t slot[4];
        next_line(lines, slot);
        if (slot[0] <= before || slot[0] > r->slots || slot[1] || slot[2] || slot[3]) fail("another slot of a cause");
        before = slot[0];
        marks[before - 1] = 1;
    }
    uint32_t cause = crossed ? KIWIMOUND_CAUSE_LOW_ABOVE_HIGH : s->busy ? KIWIMOUND_CAUSE_EXCESS : KIWIMOUND_CAUSE_SHORTFALL;
    if (head[2] != cause) fail("another cause");
    if (!crossed)
        check_set(r, longer, marks, cause == KIWIMOUND_CAUSE_SHORTFALL);
    else if (head[3] != 1 || before != crossed)
        fail("another slot with its low above its high");
}

/* The entries of a day with these counts: each blower is idle, maybe for no slot, then busy, and so on. */
static void check_entries(const kiwimound_reading *r, const uint32_t *counts, struct lines *lines, bool is_cut) {
    struct bounds b = {{0}, {0}};
    for (uint32_t t = 0; t < r->slots; t++) b.high[t] = r->blowers;
    for (uint32_t k = r->blowers; k >= 1; k--) {
        struct stretch s = {k, 1, 0, false};
        for (; s.first <= r->slots; s.first = s.last + 1, s.busy = !s.busy) {
            for (s.last = s.first - 1; s.last < r->slots && (counts[s.last] >= k) == s.busy;) s.last++;
            if (s.last < r->slots) {
                if (is_cut && lines->seen == lines->count) {
                    /* The entry that did not fit has a line, and one for each slot at most. */
                    if (lines->count + 1 + r->slots <= MOST_LINES) fail("a listing cut too early");
                    return;
                }
                struct bounds longer = b;
                keep(&longer, &s, s.last + 1);
                check_entry(r, &longer, &s, lines);
            }
            keep(&b, &s, s.last);
        }
    }
    if (is_cut) fail("a whole listing that was cut");
    if (lines->seen != lines->count) fail("too many lines of causes");
}

uint32_t check_causes(const uint8_t *sheet, size_t size, const kiwimound_reading *r, uint32_t number, const uint32_t *counts, size_t lent) {
    uint8_t *out = lend_buffer(OUT, lent);
    kiwimound_causes_answer a = kiwimound_causes(sheet, size, out, lent);
    uint32_t expected = r->number ? r->number : lent < KIWIMOUND_CAUSES_BYTES ? 10 : number;
    if (a.number != expected || a.line != r->line) fail("causes gives another number");
    if (expected && (a.length || a.cut)) fail("a refusal with causes");
    if (a.length % LINE || a.length > KIWIMOUND_CAUSES_BYTES) fail("causes gives another length");
    struct lines lines = {out, a.length / LINE, 0};
    if (expected == 0 && counts) check_entries(r, counts, &lines, a.cut);
    take_back(OUT, a.length);
    return (uint32_t)lines.count;
}
