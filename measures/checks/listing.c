/* What a listing says is counted again, from the sheet's numbers. */
#include "checks.h"
#include "lent.h"

#include <stdbool.h>
#include <string.h>

enum { LINE = KIWIMOUND_LINE_BYTES, WORD = 5 };

/* A line of a listing after its opening word. */
static void line_at(const uint8_t *listing, size_t line, uint32_t numbers[4]) {
    read_line(listing + WORD + LINE * line, numbers);
}

/* The feed lines: each meal has its volume in its window, its parts counted from 1; each slot has no more than its high,
 * and a tank once at most. Gives the rations and the count of each slot. */
static void check_feeds(const kiwimound_reading *sheet, const uint32_t *highs, const uint8_t *listing,
                        struct listed *listed) {
    uint32_t parts[64] = {0}, slot = 0;
    for (uint32_t i = 0; i < listed->feeds; i++) {
        uint32_t f[4], j = 0;
        line_at(listing, 1 + listed->stretches + i, f);
        if (f[0] < slot || f[0] < 1 || f[0] > sheet->slots) fail("a feeding out of order");
        slot = f[0];
        if (f[1] != ++listed->counts[slot - 1]) fail("a feeding with another blower");
        if (f[1] > highs[slot - 1]) fail("more feedings in a slot than it may hold");
        /* The first meal of the tank that has not ended: the windows of a tank's meals follow each other. */
        while (j < sheet->rations && (sheet->numbers[4 * j] != f[2] || sheet->numbers[4 * j + 2] < slot)) j++;
        if (j == sheet->rations) fail("a feeding of no meal");
        if (slot < sheet->numbers[4 * j + 1]) fail("a feeding outside its window");
        if (f[3] != ++parts[j]) fail("a part out of order");
        uint64_t ration = (uint64_t)1 << j;
        if (listed->words[slot - 1] & ration) fail("one tank fed twice in a slot");
        listed->words[slot - 1] |= ration;
    }
    for (uint32_t j = 0; j < sheet->rations; j++)
        if (parts[j] != sheet->numbers[4 * j + 3]) fail("a ration without its volume");
}

/* Tenths of a cent per energy unit in a slot, by its hour. */
static uint32_t rate_of(uint32_t slot) {
    uint32_t hour = (slot - 1) / 4;
    return hour < 6 ? 18 : hour < 9 ? 31 : hour < 17 ? 24 : hour < 21 ? 36 : 22;
}

/* The last line: what the stretch lines cost, slot by slot. Gives it in cents. */
static uint32_t check_bill(const kiwimound_reading *sheet, const uint8_t *listing, const uint32_t head[4]) {
    uint32_t tenths = 0, bill[4];
    bool was_on = false;
    for (uint32_t i = 1; i <= head[2]; i++) {
        uint32_t s[4];
        line_at(listing, i, s);
        if (s[1] == 1) was_on = false; /* another blower, off before its day */
        for (uint32_t t = s[1]; t <= s[2]; t++) {
            bool is_on = s[3] != 0;
            if (is_on) tenths += rate_of(t) * (was_on ? 1 : 1 + sheet->wake);
            was_on = is_on;
        }
    }
    uint32_t cents = tenths / 10 + (tenths % 10 >= 5);
    line_at(listing, 1 + head[2] + head[3], bill);
    if (bill[0] != cents / 100 || bill[1] != cents % 100 || bill[2] || bill[3]) fail("another bill");
    return cents;
}

/* The stretch lines: they cover the day of each blower, busy where the slot's count is at least its number; and the
 * energy adds up. */
static void check_stretches(const kiwimound_reading *sheet, const uint8_t *listing, const uint32_t head[4], const uint32_t *counts) {
    uint32_t line = 0, on = 0, starts = 0;
    for (uint32_t k = 1; k <= sheet->blowers; k++) {
        bool was_off = true;
        for (uint32_t from = 1; from <= sheet->slots;) {
            uint32_t s[4], to = from;
            bool busy = counts[from - 1] >= k;
            while (to < sheet->slots && (counts[to] >= k) == busy) to++;
            bool at_end = from == 1 || to == sheet->slots;
            uint32_t state = busy ? 2 : at_end || to - from + 1 >= sheet->wake ? 0 : 1;
            if (line++ == head[2]) fail("too few stretch lines");
            line_at(listing, line, s);
            if (s[0] != k || s[1] != from || s[2] != to || s[3] != state) fail("another stretch");
            if (state) on += to - from + 1;
            if (state && was_off) starts++;
            was_off = !state;
            from = to + 1;
        }
    }
    if (line != head[2]) fail("too many stretch lines");
    if (starts != head[1] || on + sheet->wake * starts != head[0]) fail("another energy");
}

struct listed check_plan_listing(const kiwimound_reading *sheet, const uint32_t *highs, const uint8_t *listing,
                                 size_t length) {
    struct listed listed = {0};
    uint32_t head[4];
    line_at(listing, 0, head);
    if (memcmp(listing, "PLAN\n", WORD) || length != WORD + LINE * (size_t)(2 + head[2] + head[3])) fail("another length");
    listed.energy = head[0];
    listed.stretches = head[2];
    listed.feeds = head[3];
    check_feeds(sheet, highs, listing, &listed);
    check_stretches(sheet, listing, head, listed.counts);
    listed.cents = check_bill(sheet, listing, head);
    return listed;
}

struct listed check_held_listing(const kiwimound_reading *sheet, const uint32_t *highs, const uint8_t *listing,
                                 size_t length) {
    struct listed listed = {0};
    uint32_t head[4], before = 0, forced = 0, capacity = 0;
    line_at(listing, 0, head);
    if (memcmp(listing, "HELD\n", WORD) || head[0] != 12 || length != WORD + LINE * (size_t)(1 + head[1])) fail("another held listing");
    for (uint32_t i = 0; i < head[1]; i++) {
        uint32_t s[4];
        line_at(listing, 1 + i, s);
        if (s[0] <= before || s[0] > sheet->slots || s[1] || s[2] || s[3]) fail("another slot shown");
        before = s[0];
        listed.marks[before - 1] = 1;
        capacity += highs[before - 1];
    }
    for (uint32_t j = 0; j < sheet->rations; j++) {
        const uint32_t *ration = sheet->numbers + 4 * j;
        uint32_t outside = 0;
        for (uint32_t t = ration[1]; t <= ration[2]; t++) outside += !listed.marks[t - 1];
        if (ration[3] > outside) forced += ration[3] - outside;
    }
    if (head[2] != forced || head[3] != capacity || forced <= capacity) fail("another count of a held sheet");
    listed.shown = head[1];
    listed.shortfall = (int32_t)(forced - capacity);
    return listed;
}
