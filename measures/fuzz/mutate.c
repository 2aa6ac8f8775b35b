#include "mutate.h"

#include "checks.h"

#include <stdlib.h>
#include <string.h>

enum { COLUMNS = KIWIMOUND_FIELD_COLUMNS, LINE = KIWIMOUND_LINE_BYTES, MOST_RATIONS = 66, TOO_WIDE = 1000000 };

enum { SLOTS = KIWIMOUND_MAX_SLOTS, BLOWERS = KIWIMOUND_MAX_BLOWERS, WAKE = KIWIMOUND_MAX_WAKE };

enum { RATIONS = KIWIMOUND_MAX_RATIONS, TANK = KIWIMOUND_MAX_TANK };

static uint32_t state;

static uint32_t below(uint32_t bound) {
    state ^= state << 13;
    state ^= state >> 17;
    state ^= state << 5;
    return state % bound;
}

static uint32_t between(uint32_t low, uint32_t high) { return low + below(high - low + 1); }

struct sheet {
    uint32_t head[4];
    uint32_t rations[MOST_RATIONS][4]; /* tank, first, last, volume */
};

static uint32_t field(const uint8_t *at) {
    char text[COLUMNS + 1] = {0};
    memcpy(text, at, COLUMNS);
    return (uint32_t)strtoul(text, NULL, 10) % TOO_WIDE;
}

static void parse(struct sheet *s, const uint8_t *bytes, size_t size) {
    memset(s, 0, sizeof *s);
    for (size_t i = 0; i < size / LINE && i <= MOST_RATIONS; i++)
        for (size_t f = 0; f < 4; f++) (i ? s->rations[i - 1] : s->head)[f] = field(bytes + LINE * i + COLUMNS * f);
    size_t n = size / LINE ? size / LINE - 1 : 0;
    s->head[3] = n > MOST_RATIONS ? MOST_RATIONS : (uint32_t)n;
}

/* A wake cost: mostly one that is less than a stretch may be long. */
static uint32_t draw_wake(void) {
    static const uint32_t wakes[] = {10, 10, 200, WAKE};
    return between(0, wakes[below(4)]);
}

/* A ration somewhere in the day. */
static void draw_ration(const struct sheet *s, uint32_t ration[4]) {
    uint32_t day = s->head[0] ? s->head[0] : 1;
    static const uint32_t tanks[] = {20, 20, 999, TANK};
    ration[0] = between(1, tanks[below(4)]);
    ration[1] = between(1, day);
    ration[2] = between(ration[1], day);
    ration[3] = between(1, ration[2] - ration[1] + 1);
    if (below(2)) ration[3] = between(1, ration[3]);
}

static void draw_sheet(struct sheet *s) {
    s->head[0] = below(3) ? between(1, SLOTS) : SLOTS;
    s->head[1] = between(1, BLOWERS);
    s->head[2] = draw_wake();
    s->head[3] = below(3) ? between(0, RATIONS) : below(8);
    for (uint32_t i = 0; i < s->head[3]; i++) draw_ration(s, s->rations[i]);
}

static void change(struct sheet *s) {
    uint32_t n = s->head[3];
    uint32_t *ration = s->rations[n ? below(n) : 0];
    switch (below(15)) {
        case 0: s->head[0] = between(1, SLOTS); break;
        case 1: s->head[1] = between(1, BLOWERS); break;
        case 2: s->head[2] = draw_wake(); break;
        case 3: draw_ration(s, ration); break;
        case 4: ration[1] = 1; ration[2] = s->head[0]; break;
        case 5: ration[3] = ration[2] - ration[1] + 1; break;
        case 6: ration[3]++; break;
        case 7: ration[3]--; break;
        case 8: ration[1 + below(2)]++; break;
        case 9: ration[1 + below(2)]--; break;
        case 10:
            if (n < MOST_RATIONS) draw_ration(s, s->rations[s->head[3]++]);
            break;
        case 11:
            if (n) memcpy(ration, s->rations[--s->head[3]], sizeof s->rations[0]);
            break;
        case 12:
            for (uint32_t i = 0; i < n; i++) s->rations[i][1] = 1, s->rations[i][2] = s->head[0];
            break;
        case 13: draw_sheet(s); break;
        case 14: ration[0] = s->rations[n ? below(n) : 0][0]; break;
    }
}

/* By tank, then by first slot. */
static int by_meal(const void *a, const void *b) {
    const uint32_t *one = a, *other = b;
    size_t f = one[0] == other[0];
    return (one[f] > other[f]) - (one[f] < other[f]);
}

static void clamp(uint32_t *value, uint32_t low, uint32_t high) {
    if (*value < low) *value = low;
    if (*value > high) *value = high;
}

/* Puts every number into its range. A meal that would begin before the one before it ends begins after it or, where the day is over then, goes to the
 * next tank; each ration leaves those after it a tank above it for that. */
static void repair(struct sheet *s) {
    clamp(&s->head[0], 1, SLOTS);
    clamp(&s->head[1], 1, BLOWERS);
    clamp(&s->head[2], 0, WAKE);
    clamp(&s->head[3], 0, RATIONS);
    qsort(s->rations, s->head[3], sizeof s->rations[0], by_meal);
    uint32_t tank = 1, end = 0; /* of the ration before */
    for (uint32_t i = 0; i < s->head[3]; i++) {
        uint32_t *r = s->rations[i];
        clamp(&r[0], tank, TANK - (s->head[3] - 1 - i));
        if (r[0] == tank && end == s->head[0]) r[0]++;
        clamp(&r[1], r[0] == tank ? end + 1 : 1, s->head[0]);
        clamp(&r[2], r[1], s->head[0]);
        tank = r[0];
        end = r[2];
        clamp(&r[3], 1, r[2] - r[1] + 1);
    }
}

/* Sets a ration's tank, or its first slot, to what the one before has there: mostly a meal too early. */
static void spoil(struct sheet *s) {
    if (s->head[3] < 2) return;
    uint32_t i = between(1, s->head[3] - 1);
    uint32_t *r = s->rations[i], *before = s->rations[i - 1];
    if (below(2)) r[0] = before[0];
    if (r[0] == before[0]) r[1] = below(2) ? before[2] : before[1];
}

size_t mutate_sheet(uint8_t *bytes, size_t size, size_t most, unsigned int seed) {
    static struct sheet s;
    state = seed | 1;
    below(1);
    parse(&s, bytes, size);
    if (size < LINE) draw_sheet(&s);
    for (uint32_t times = between(1, 4); times; times--) change(&s);
    if (below(8)) repair(&s);
    if (below(16) == 0) spoil(&s);
    size_t lines = s.head[3] + 1;
    if (lines > most / LINE) lines = most / LINE;
    for (size_t i = 0; i < lines; i++) {
        uint32_t *v = i ? s.rations[i - 1] : s.head;
        for (size_t f = 0; f < 4; f++) v[f] %= TOO_WIDE;
        put_line(bytes + LINE * i, v);
    }
    return LINE * lines;
}
