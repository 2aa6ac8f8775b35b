/* Every call of the library, on the days of document 01 ("Days at the edge"), on days with several meals for a tank, on
 * days for the placing, for the bill, for the order of plans, for causes and for cut rations, on a day with tanks
 * numbered by site, on halls and on practice sheets: what it answers, what it writes, and what keeps its value. */
#include "kiwimound.h"

#include <stdio.h>
#include <string.h>

static unsigned failures = 0;

#define EXPECT(fact) \
    do { \
        if (!(fact)) { \
            printf("tests.c:%d: %s\n", __LINE__, #fact); \
            failures++; \
        } \
    } while (0)

/* A sheet's bytes and their number, for a call's first two arguments. */
#define LEND(text) (const uint8_t *)(text), sizeof(text) - 1

#define FOUR_SLOTS \
    "     4     2     2     3\n" \
    "     1     1     2     2\n" \
    "     2     1     4     2\n" \
    "     3     2     3     1\n"

#define FOUR_SLOTS_PLAN \
    "PLAN\n" \
    "     9     2     4     5\n" \
    "     1     1     4     2\n" \
    "     2     1     2     0\n" \
    "     2     3     3     2\n" \
    "     2     4     4     0\n" \
    "     1     1     1     1\n" \
    "     2     1     1     2\n" \
    "     3     1     2     1\n" \
    "     3     2     3     1\n" \
    "     4     1     2     2\n" \
    "     0    16     0     0\n"

#define HELD \
    "     3     1     1     2\n" \
    "     1     1     2     2\n" \
    "     2     2     3     2\n"

#define HELD_LISTING \
    "HELD\n" \
    "    12     1     2     1\n" \
    "     2     0     0     0\n"

#define ONE_FEEDING \
    "     3     1     1     1\n" \
    "     1     1     3     1\n"

/* The same counts, but of another tank. */
#define LAST_SLOT \
    "     3     1     1     1\n" \
    "     7     3     3     1\n"

/* Tank 1 has a morning and an evening meal. */
#define TWO_MEALS \
    "    10     2     3     3\n" \
    "     1     1     3     2\n" \
    "     1     8    10     2\n" \
    "     2     1     4     3\n"

#define TWO_MEALS_PLAN \
    "PLAN\n" \
    "    16     3     6     7\n" \
    "     1     1     4     2\n" \
    "     1     5     8     0\n" \
    "     1     9    10     2\n" \
    "     2     1     2     0\n" \
    "     2     3     3     2\n" \
    "     2     4    10     0\n" \
    "     1     1     1     1\n" \
    "     2     1     2     1\n" \
    "     3     1     1     2\n" \
    "     3     2     2     2\n" \
    "     4     1     2     3\n" \
    "     9     1     1     1\n" \
    "    10     1     1     2\n" \
    "     0    29     0     0\n"

/* The second meal begins in the last slot of the first. */
#define BAD_MEAL \
    "     4     1     1     2\n" \
    "     5     1     2     1\n" \
    "     5     2     4     1\n"

#define BAD_WINDOW \
    "     3     1     1     2\n" \
    "     1     1     2     2\n" \
    "     2     2     4     2\n"

/* Tanks numbered by site and pond, up to the greatest number, and blowers whose start takes 1,500 units. */
#define SITE_TANKS \
    "     8     2  1500     4\n" \
    "101004     1     2     2\n" \
    "101005     6     8     2\n" \
    "249912     1     3     1\n" \
    "250000     7     8     2\n"

/* Tanks 101004 and 250000 take all slots of their windows; tank 249912 is fed in slot 3, and tank 101005 in the slots 6
 * and 8. Blower 1 stays on in the slots 4 and 5, and blower 2 has the second feeding of slot 8. Energy is
 * 9 + 2 * 1,500, and at 18 tenths of a cent it costs 5,416.2 cents. */
#define SITE_TANKS_PLAN \
    "PLAN\n" \
    "  3009     2     5     7\n" \
    "     1     1     3     2\n" \
    "     1     4     5     1\n" \
    "     1     6     8     2\n" \
    "     2     1     7     0\n" \
    "     2     8     8     2\n" \
    "     1     1101004     1\n" \
    "     2     1101004     2\n" \
    "     3     1249912     1\n" \
    "     6     1101005     1\n" \
    "     7     1250000     1\n" \
    "     8     1101005     2\n" \
    "     8     2250000     2\n" \
    "    54    16     0     0\n"

/* The value of bytes that must keep it, and how many bytes or words are lent beyond the least length. */
enum { GUARD = 0xA5, SPARE = 7 };
enum { LENT_WORDS = KIWIMOUND_PLACING_WORDS + SPARE };

static uint8_t listing[KIWIMOUND_LISTING_BYTES + SPARE];
static uint64_t placing[LENT_WORDS];
static uint8_t causes[2 * KIWIMOUND_CAUSES_BYTES]; /* more than any listing of causes takes */

static void guard(void)
{
    memset(listing, GUARD, sizeof listing);
    memset(placing, GUARD, sizeof placing);
    memset(causes, GUARD, sizeof causes);
}

/* From a place on, every byte has its value from before. Of words too, the size and the place are in bytes. */
static bool kept(const void *lent, size_t size, size_t from)
{
    const uint8_t *bytes = lent;
    for (size_t i = from; i < size; i++)
        if (bytes[i] != GUARD)
            return false;
    return true;
}

static bool is_listing(kiwimound_planned p, const char *text)
{
    const size_t length = strlen(text);
    return p.length == length && memcmp(listing, text, length) == 0 && kept(listing, sizeof listing, length);
}

static bool is_placing(const uint64_t expected[KIWIMOUND_PLACING_WORDS])
{
    const size_t size = KIWIMOUND_PLACING_WORDS * sizeof *expected;
    return memcmp(placing, expected, size) == 0 && kept(placing, sizeof placing, size);
}

/* The placing of FOUR_SLOTS: ration 1 in the slots 1 and 2, ration 2 in 3 and 4, ration 3 in 3. */
static bool is_four_slots_placing(void)
{
    enum { FIRST = 1, SECOND = 2, THIRD = 4 }; /* the bits of the rations 1 to 3 */
    static const uint64_t expected[KIWIMOUND_PLACING_WORDS] = {FIRST, FIRST, SECOND | THIRD, SECOND};
    return is_placing(expected);
}

static bool is_empty_placing(void)
{
    static const uint64_t expected[KIWIMOUND_PLACING_WORDS] = {0};
    return is_placing(expected);
}

static void test_read(void)
{
    static const uint32_t numbers[12] = {1, 1, 2, 2, 2, 1, 4, 2, 3, 2, 3, 1};
    const kiwimound_reading r = kiwimound_read(LEND(FOUR_SLOTS));
    EXPECT(r.number == 0 && r.line == 0 && r.slots == 4 && r.blowers == 2 && r.wake == 2 && r.rations == 3);
    EXPECT(memcmp(r.numbers, numbers, sizeof numbers) == 0);
    for (size_t i = 12; i < 256; i++)
        EXPECT(r.numbers[i] == 0);

    const kiwimound_reading bad = kiwimound_read(LEND(BAD_WINDOW));
    EXPECT(bad.number == KIWIMOUND_BAD_WINDOW && bad.line == 3 && bad.slots == 0 && bad.rations == 0);
    for (size_t i = 0; i < 256; i++)
        EXPECT(bad.numbers[i] == 0);
    EXPECT(kiwimound_read(LEND("")).number == KIWIMOUND_BAD_LENGTH);
    EXPECT(kiwimound_read(LEND("    97     1     1     0\n")).number == KIWIMOUND_BAD_SLOTS);
    EXPECT(kiwimound_read(LEND("     3     9     1     0\n")).number == KIWIMOUND_BAD_BLOWERS);
    EXPECT(kiwimound_read(LEND("     3     1  2001     0\n")).number == KIWIMOUND_BAD_WAKE);
}

static void test_write(void)
{
    static const uint32_t numbers[12] = {1, 1, 2, 2, 2, 1, 4, 2, 3, 2, 3, 1};
    const size_t length = sizeof FOUR_SLOTS - 1;
    guard();
    kiwimound_written w = kiwimound_write(4, 2, 2, 3, numbers, 12, listing, length + SPARE);
    EXPECT(w.number == 0 && w.line == 0 && w.length == length && length == KIWIMOUND_SHEET_BYTES(3));
    EXPECT(memcmp(listing, FOUR_SLOTS, length) == 0 && kept(listing, sizeof listing, length));

    guard();
    w = kiwimound_write(4, 2, 2, 3, numbers, 12, listing, length - 1);
    EXPECT(w.number == KIWIMOUND_SHORT_BUFFER && w.line == 0 && w.length == 0);
    w = kiwimound_write(4, 2, 2, 3, numbers, 8, listing, length);
    EXPECT(w.number == KIWIMOUND_BAD_RATIONS && w.line == 1 && w.length == 0);
    w = kiwimound_write(3, 2, 2, 3, numbers, 12, listing, length);
    EXPECT(w.number == KIWIMOUND_BAD_WINDOW && w.line == 3 && w.length == 0);
    EXPECT(kiwimound_write(97, 1, 1, 0, numbers, 0, listing, length).number == KIWIMOUND_BAD_SLOTS);
    EXPECT(kiwimound_write(3, 9, 1, 0, numbers, 0, listing, length).number == KIWIMOUND_BAD_BLOWERS);
    EXPECT(kiwimound_write(3, 1, 2001, 0, numbers, 0, listing, length).number == KIWIMOUND_BAD_WAKE);
    EXPECT(kept(listing, sizeof listing, 0));
}

static void test_find(void)
{
    kiwimound_part p = kiwimound_find(LEND(FOUR_SLOTS), 2);
    EXPECT(p.start == 50 && p.length == KIWIMOUND_LINE_BYTES);
    p = kiwimound_find(LEND(FOUR_SLOTS), 9);
    EXPECT(p.start == 0 && p.length == 0);
    p = kiwimound_find(LEND(HELD), 2);
    EXPECT(p.start == 50 && p.length == KIWIMOUND_LINE_BYTES);
    p = kiwimound_find(LEND(BAD_WINDOW), 1);
    EXPECT(p.start == 0 && p.length == 0);
}

/* Several meals for one tank: every call takes them, and number 13 where they overlap. */
static void test_meals(void)
{
    guard();
    kiwimound_planned p = kiwimound_plan(LEND(TWO_MEALS), listing, sizeof listing);
    EXPECT(p.number == 0 && p.line == 0 && is_listing(p, TWO_MEALS_PLAN));
    /* The meals of tank 1 are the rations 1 and 2, and tank 2 has ration 3. */
    static const uint64_t words[KIWIMOUND_PLACING_WORDS] = {1, 4, 1 | 4, 4, 0, 0, 0, 0, 2, 2};
    p = kiwimound_plan_placing(LEND(TWO_MEALS), placing, LENT_WORDS);
    EXPECT(p.number == 0 && p.line == 0 && p.length == 0 && is_placing(words));
    kiwimound_part part = kiwimound_find(LEND(TWO_MEALS), 1);
    EXPECT(part.start == KIWIMOUND_LINE_BYTES && part.length == 2 * KIWIMOUND_LINE_BYTES);
    part = kiwimound_find(LEND(TWO_MEALS), 2);
    EXPECT(part.start == 3 * KIWIMOUND_LINE_BYTES && part.length == KIWIMOUND_LINE_BYTES);
    EXPECT(kiwimound_read(LEND("     4     1     1     2\n"
                               "     5     1     2     1\n"
                               "     5     3     4     1\n")).number == KIWIMOUND_ACCEPTED);
    EXPECT(kiwimound_read(LEND("     4     1     1     2\n"
                               "     5     1     2     1\n"
                               "     4     3     4     1\n")).number == KIWIMOUND_BAD_TANK);

    static const uint32_t numbers[8] = {5, 1, 2, 1, 5, 2, 4, 1}, none[4] = {0, 0, 0, 0};
    static const uint8_t marks[4] = {1, 0, 0, 0};
    const kiwimound_reading r = kiwimound_read(LEND(BAD_MEAL));
    EXPECT(r.number == KIWIMOUND_BAD_MEAL && r.line == 3 && r.slots == 0 && r.rations == 0);
    part = kiwimound_find(LEND(BAD_MEAL), 5);
    EXPECT(part.start == 0 && part.length == 0);
    const kiwimound_shortfall_answer s = kiwimound_shortfall(LEND(BAD_MEAL), marks, 4);
    EXPECT(s.number == KIWIMOUND_BAD_MEAL && s.line == 3 && s.shortfall == 0);
    const kiwimound_bounds_answer b = kiwimound_bounds(LEND(BAD_MEAL), none, 4, none, 4);
    EXPECT(b.number == KIWIMOUND_BAD_MEAL && b.line == 3 && !b.yes);
    const kiwimound_compared c = kiwimound_compare(LEND(TWO_MEALS), LEND(BAD_MEAL));
    EXPECT(c.number == KIWIMOUND_BAD_MEAL && c.line == 3 && c.order == KIWIMOUND_ORDER_NO);
    guard();
    p = kiwimound_plan_both(LEND(BAD_MEAL), listing, sizeof listing, placing, 0);
    EXPECT(p.number == KIWIMOUND_BAD_MEAL && p.line == 3 && p.length == 0);
    const kiwimound_written w = kiwimound_write(4, 1, 1, 2, numbers, 8, listing, 0);
    EXPECT(w.number == KIWIMOUND_BAD_MEAL && w.line == 3 && w.length == 0);
    EXPECT(kept(listing, sizeof listing, 0) && kept(placing, sizeof placing, 0));
}

static void test_shortfall(void)
{
    static const uint8_t first[3] = {1, 0, 0}, all[3] = {1, 1, 1}, fourth[4] = {0, 0, 0, 1}, two[3] = {0, 2, 0};
    kiwimound_shortfall_answer a = kiwimound_shortfall(LEND(HELD), first, 3);
    EXPECT(a.number == 0 && a.line == 0 && a.shortfall == 0);
    a = kiwimound_shortfall(LEND(HELD), all, 3);
    EXPECT(a.number == 0 && a.shortfall == 1);
    a = kiwimound_shortfall(LEND(FOUR_SLOTS), fourth, 4);
    EXPECT(a.number == 0 && a.shortfall == -2);
    a = kiwimound_shortfall(LEND(HELD), all, 2);
    EXPECT(a.number == KIWIMOUND_BAD_LIST && a.line == 0 && a.shortfall == 0);
    a = kiwimound_shortfall(LEND(HELD), two, 3);
    EXPECT(a.number == KIWIMOUND_BAD_LIST && a.shortfall == 0);
    a = kiwimound_shortfall(LEND(BAD_WINDOW), all, 3);
    EXPECT(a.number == KIWIMOUND_BAD_WINDOW && a.line == 3 && a.shortfall == 0);
}

static void test_bounds(void)
{
    static const uint32_t none[3] = {0, 0, 0}, full[3] = {1, 1, 1}, above[3] = {9, 9, 4000000000u};
    static const uint32_t early[3] = {1, 1, 0}, second[3] = {0, 1, 0}, third[3] = {0, 0, 1};
    kiwimound_bounds_answer a = kiwimound_bounds(LEND(ONE_FEEDING), none, 3, full, 3);
    EXPECT(a.number == 0 && a.line == 0 && a.yes);
    EXPECT(kiwimound_bounds(LEND(ONE_FEEDING), third, 3, above, 3).yes);
    a = kiwimound_bounds(LEND(ONE_FEEDING), early, 3, full, 3);
    EXPECT(a.number == 0 && !a.yes);
    a = kiwimound_bounds(LEND(ONE_FEEDING), second, 3, third, 3);
    EXPECT(a.number == 0 && !a.yes);
    a = kiwimound_bounds(LEND(HELD), none, 3, full, 3);
    EXPECT(a.number == 0 && !a.yes);
    a = kiwimound_bounds(LEND(ONE_FEEDING), none, 2, full, 3);
    EXPECT(a.number == KIWIMOUND_BAD_LIST && a.line == 0 && !a.yes);
    a = kiwimound_bounds(LEND(ONE_FEEDING), none, 3, full, 2);
    EXPECT(a.number == KIWIMOUND_BAD_LIST && a.line == 0 && !a.yes);
}

static void test_planned(void)
{
    guard();
    kiwimound_planned p = kiwimound_plan(LEND(FOUR_SLOTS), listing, sizeof listing);
    EXPECT(p.number == 0 && p.line == 0 && is_listing(p, FOUR_SLOTS_PLAN));
    guard();
    p = kiwimound_plan_placing(LEND(FOUR_SLOTS), placing, LENT_WORDS);
    EXPECT(p.number == 0 && p.line == 0 && p.length == 0 && is_four_slots_placing());
    guard();
    p = kiwimound_plan_both(LEND(FOUR_SLOTS), listing, sizeof listing, placing, LENT_WORDS);
    EXPECT(p.number == 0 && p.line == 0 && is_listing(p, FOUR_SLOTS_PLAN) && is_four_slots_placing());
    p = kiwimound_plan_number(LEND(FOUR_SLOTS));
    EXPECT(p.number == 0 && p.line == 0 && p.length == 0);
}

/* As many rations and slots as there can be, one feeding each: ration 1 has slot 96 alone, ration 2 slot 95, and so on
 * down to ration 64 in slot 33. */
static void test_every_ration(void)
{
    static uint8_t sheet[KIWIMOUND_SHEET_BYTES(KIWIMOUND_MAX_RATIONS)];
    uint32_t numbers[4 * KIWIMOUND_MAX_RATIONS];
    uint64_t words[KIWIMOUND_PLACING_WORDS] = {0};
    for (uint32_t i = 1; i <= KIWIMOUND_MAX_RATIONS; i++) {
        const uint32_t slot = KIWIMOUND_MAX_SLOTS + 1 - i;
        memcpy(numbers + 4 * (i - 1), (uint32_t[]){i, slot, slot, 1}, 4 * sizeof *numbers);
        words[slot - 1] = (uint64_t)1 << (i - 1);
    }
    const kiwimound_written w = kiwimound_write(KIWIMOUND_MAX_SLOTS, 1, 1, KIWIMOUND_MAX_RATIONS, numbers,
                                                4 * KIWIMOUND_MAX_RATIONS, sheet, sizeof sheet);
    EXPECT(w.number == 0 && w.length == sizeof sheet);
    EXPECT(words[95] == 1 && words[32] == UINT64_C(0x8000000000000000) && words[31] == 0);
    for (size_t lent = KIWIMOUND_PLACING_WORDS; lent <= LENT_WORDS; lent++) {
        guard();
        kiwimound_planned p = kiwimound_plan_placing(sheet, sizeof sheet, placing, lent);
        EXPECT(p.number == 0 && p.line == 0 && p.length == 0 && is_placing(words));
        guard();
        p = kiwimound_plan_both(sheet, sizeof sheet, listing, sizeof listing, placing, lent);
        EXPECT(p.number == 0 && p.line == 0 && p.length != 0 && is_placing(words));
    }
    unsigned others = 0; /* bits that are not as they should be, read one by one */
    for (uint32_t i = 1; i <= KIWIMOUND_MAX_RATIONS; i++)
        for (uint32_t t = 1; t <= KIWIMOUND_MAX_SLOTS; t++)
            others += (placing[t - 1] >> (i - 1) & 1) != (i + t == KIWIMOUND_MAX_SLOTS + 1);
    EXPECT(others == 0);
}

static bool is_planned(const char *text, const char *expected)
{
    guard();
    const kiwimound_planned p = kiwimound_plan((const uint8_t *)text, strlen(text), listing, sizeof listing);
    return p.number == 0 && p.line == 0 && is_listing(p, expected);
}

/* The last line of a plan: hundreds of cents, remaining cents, 0, 0. */
static void test_bill(void)
{
    EXPECT(is_planned("     3     1     4     0\n", /* nothing is on */
                      "PLAN\n"
                      "     0     0     1     0\n"
                      "     1     1     3     0\n"
                      "     0     0     0     0\n"));
    EXPECT(is_planned("     1     1   200     1\n" /* 201 units at 18 tenths of a cent: 361.8 cents */
                      "     1     1     1     1\n",
                      "PLAN\n"
                      "   201     1     1     1\n"
                      "     1     1     1     2\n"
                      "     1     1     1     1\n"
                      "     3    62     0     0\n"));
    EXPECT(is_planned("     1     1  2000     1\n" /* 2,001 units: 3,601.8 cents */
                      "     1     1     1     1\n",
                      "PLAN\n"
                      "  2001     1     1     1\n"
                      "     1     1     1     2\n"
                      "     1     1     1     1\n"
                      "    36     2     0     0\n"));
    EXPECT(is_planned("    25     1     3     2\n" /* 4 units in slot 1 at 18, and 4 in slot 25 at 31: 19.6 cents */
                      "     1     1     1     1\n"
                      "     2    25    25     1\n",
                      "PLAN\n"
                      "     8     2     3     2\n"
                      "     1     1     1     2\n"
                      "     1     2    24     0\n"
                      "     1    25    25     2\n"
                      "     1     1     1     1\n"
                      "    25     1     2     1\n"
                      "     0    20     0     0\n"));
    EXPECT(is_planned("    37     1     0     1\n" /* slot 36 at 31 and slot 37 at 24: 5.5 cents */
                      "     1    36    37     2\n",
                      "PLAN\n"
                      "     2     1     2     2\n"
                      "     1     1    35     0\n"
                      "     1    36    37     2\n"
                      "    36     1     1     1\n"
                      "    37     1     1     2\n"
                      "     0     6     0     0\n"));
    guard();
    EXPECT(KIWIMOUND_LISTING_BYTES == 5 + KIWIMOUND_LINE_BYTES * (2 + 2 * KIWIMOUND_MAX_BLOWERS * KIWIMOUND_MAX_SLOTS));
    kiwimound_planned p = kiwimound_plan(LEND(FOUR_SLOTS), listing, KIWIMOUND_LISTING_BYTES - KIWIMOUND_LINE_BYTES);
    EXPECT(p.number == KIWIMOUND_SHORT_BUFFER && p.line == 0 && p.length == 0);
    p = kiwimound_plan(LEND(FOUR_SLOTS), listing, KIWIMOUND_LISTING_BYTES - 1);
    EXPECT(p.number == KIWIMOUND_SHORT_BUFFER && p.line == 0 && p.length == 0 && kept(listing, sizeof listing, 0));
    p = kiwimound_plan(LEND(FOUR_SLOTS), listing, KIWIMOUND_LISTING_BYTES);
    EXPECT(p.number == 0 && p.line == 0 && is_listing(p, FOUR_SLOTS_PLAN));
}

static void test_held(void)
{
    guard();
    kiwimound_planned p = kiwimound_plan(LEND(HELD), listing, sizeof listing);
    EXPECT(p.number == KIWIMOUND_HELD && p.line == 0 && is_listing(p, HELD_LISTING));
    guard();
    p = kiwimound_plan_placing(LEND(HELD), placing, LENT_WORDS);
    EXPECT(p.number == KIWIMOUND_HELD && p.line == 0 && p.length == 0 && is_empty_placing());
    guard();
    p = kiwimound_plan_both(LEND(HELD), listing, sizeof listing, placing, LENT_WORDS);
    EXPECT(p.number == KIWIMOUND_HELD && p.line == 0 && is_listing(p, HELD_LISTING) && is_empty_placing());
    p = kiwimound_plan_number(LEND(HELD));
    EXPECT(p.number == KIWIMOUND_HELD && p.line == 0 && p.length == 0);
}

/* Refusals other than 12: nothing is written, and a sheet's own refusal comes before that of a buffer. */
static void test_refused(void)
{
    const size_t whole = KIWIMOUND_LISTING_BYTES, words = KIWIMOUND_PLACING_WORDS;
    guard();
    kiwimound_planned p = kiwimound_plan(LEND(HELD), listing, whole - 1);
    EXPECT(p.number == KIWIMOUND_SHORT_BUFFER && p.line == 0 && p.length == 0);
    const size_t few[] = {0, 1, words - 1}; /* the last is 95 */
    for (size_t i = 0; i < sizeof few / sizeof *few; i++) {
        p = kiwimound_plan_placing(LEND(FOUR_SLOTS), placing, few[i]);
        EXPECT(p.number == KIWIMOUND_SHORT_BUFFER && p.line == 0 && p.length == 0);
        p = kiwimound_plan_placing(LEND(HELD), placing, few[i]);
        EXPECT(p.number == KIWIMOUND_SHORT_BUFFER && p.line == 0 && p.length == 0);
        p = kiwimound_plan_both(LEND(FOUR_SLOTS), listing, whole, placing, few[i]);
        EXPECT(p.number == KIWIMOUND_SHORT_BUFFER && p.line == 0 && p.length == 0);
    }
    p = kiwimound_plan_both(LEND(FOUR_SLOTS), listing, whole - 1, placing, words);
    EXPECT(p.number == KIWIMOUND_SHORT_BUFFER && p.line == 0 && p.length == 0);
    p = kiwimound_plan_placing(LEND(BAD_WINDOW), placing, words);
    EXPECT(p.number == KIWIMOUND_BAD_WINDOW && p.line == 3 && p.length == 0);
    p = kiwimound_plan_both(LEND(BAD_WINDOW), listing, 0, placing, 0);
    EXPECT(p.number == KIWIMOUND_BAD_WINDOW && p.line == 3 && p.length == 0);
    p = kiwimound_plan_number(LEND(BAD_WINDOW));
    EXPECT(p.number == KIWIMOUND_BAD_WINDOW && p.line == 3 && p.length == 0);
    EXPECT(kept(listing, sizeof listing, 0) && kept(placing, sizeof placing, 0));
}

/* The sheet of a seed is this one, with buffers just long enough and longer; shorter ones are refused. */
static bool is_practice(uint32_t seed, const uint8_t *sheet, size_t length)
{
    static uint8_t out[KIWIMOUND_PRACTICE_BYTES + SPARE];
    const size_t few[] = {0, 1, KIWIMOUND_LINE_BYTES - 1, length - KIWIMOUND_LINE_BYTES, length - 1};
    const size_t enough[] = {length, length + 1, KIWIMOUND_PRACTICE_BYTES, sizeof out};
    memset(out, GUARD, sizeof out);
    for (size_t i = 0; i < sizeof few / sizeof *few; i++) {
        const kiwimound_written w = kiwimound_practice(seed, out, few[i]);
        if (w.number != KIWIMOUND_SHORT_BUFFER || w.line != 0 || w.length != 0 || !kept(out, sizeof out, 0))
            return false;
    }
    for (size_t i = 0; i < sizeof enough / sizeof *enough; i++) {
        memset(out, GUARD, sizeof out);
        const kiwimound_written w = kiwimound_practice(seed, out, enough[i]);
        if (w.number != 0 || w.line != 0 || w.length != length)
            return false;
        if (memcmp(out, sheet, length) != 0 || !kept(out, sizeof out, length))
            return false;
    }
    return true;
}

/* A draw of request 107. In 64 bits nothing is lost before the remainder drops what passes 32. */
static uint32_t draw(uint64_t *s)
{
    *s = (1664525 * *s + 1013904223) % 4294967296u;
    return (uint32_t)(*s / 65536);
}

/* Writes the numbers that a seed draws as a sheet, which must be accepted and read back to them. Gives its length. */
static size_t write_drawn(uint32_t seed, uint8_t sheet[KIWIMOUND_PRACTICE_BYTES])
{
    uint32_t numbers[4 * KIWIMOUND_MAX_RATIONS] = {0};
    uint64_t s = seed;
    const uint32_t blowers = 1 + draw(&s) % 8;
    const uint32_t wake = draw(&s) % 201;
    const uint32_t n = draw(&s) % 65;
    for (uint32_t i = 0; i < n; i++) {
        const uint32_t first = 1 + draw(&s) % 96;
        const uint32_t last = first + draw(&s) % (97 - first);
        const uint32_t volume = 1 + draw(&s) % (last - first + 1);
        memcpy(numbers + 4 * i, (uint32_t[]){i + 1, first, last, volume}, 4 * sizeof *numbers);
    }
    const kiwimound_written w =
        kiwimound_write(96, blowers, wake, n, numbers, 4 * (size_t)n, sheet, KIWIMOUND_PRACTICE_BYTES);
    EXPECT(w.number == 0 && w.length == KIWIMOUND_SHEET_BYTES(n));
    const kiwimound_reading r = kiwimound_read(sheet, w.length);
    EXPECT(r.number == 0 && r.slots == 96 && r.blowers == blowers && r.wake == wake && r.rations == n);
    EXPECT(memcmp(r.numbers, numbers, sizeof numbers) == 0);
    return w.length;
}

static void test_practice(void)
{
    /* From seed 21, draw by draw: 16,004, 12,015 and 13,002, which are 4 mod 8, 156 mod 201 and 2 mod 65; 29,177,
     * 24,895 and 21,216, which are 89 mod 96, 3 mod 7 and 0 mod 4; then 25,919, 95 mod 96, which leaves one slot. */
    static const char seed_21[] =
        "    96     5   156     2\n"
        "     1    90    93     1\n"
        "     2    96    96     1\n";
    EXPECT(is_practice(21, LEND(seed_21)));
    EXPECT(is_planned(seed_21, /* blower 1 stays on from slot 93 to 96: 160 units at 22 tenths of a cent */
                      "PLAN\n"
                      "   160     1     8     2\n"
                      "     1     1    92     0\n"
                      "     1    93    93     2\n"
                      "     1    94    95     1\n"
                      "     1    96    96     2\n"
                      "     2     1    96     0\n"
                      "     3     1    96     0\n"
                      "     4     1    96     0\n"
                      "     5     1    96     0\n"
                      "    93     1     1     1\n"
                      "    96     1     2     1\n"
                      "     3    52     0     0\n"));
    static const char seed_1580[] =
        "    96     1   108     2\n"
        "     1    91    93     3\n"
        "     2    91    93     1\n";
    EXPECT(is_practice(1580, LEND(seed_1580)));
    guard();
    const kiwimound_planned p = kiwimound_plan(LEND(seed_1580), listing, sizeof listing);
    EXPECT(p.number == KIWIMOUND_HELD && p.line == 0);
    EXPECT(is_listing(p, /* three slots, and four feedings for one blower */
                      "HELD\n"
                      "    12     3     4     3\n"
                      "    91     0     0     0\n"
                      "    92     0     0     0\n"
                      "    93     0     0     0\n"));

    static uint8_t sheet[KIWIMOUND_PRACTICE_BYTES];
    /* The last seeds that the program takes, the next one, the last of all; those after which s is 0 and 2^32 - 1. */
    static const uint32_t others[] = {99998, 99999, 100000, UINT32_MAX - 1, UINT32_MAX, 634785765, 653637408};
    enum { FROM_ZERO = 300, COUNT = FROM_ZERO + sizeof others / sizeof *others };
    uint32_t planned = 0, held = 0;
    size_t shortest = SIZE_MAX, longest = 0;
    for (uint32_t i = 0; i < COUNT; i++) {
        const uint32_t seed = i < FROM_ZERO ? i : others[i - FROM_ZERO];
        const size_t length = write_drawn(seed, sheet);
        EXPECT(is_practice(seed, sheet, length));
        shortest = length < shortest ? length : shortest;
        longest = length > longest ? length : longest;
        const uint32_t number = kiwimound_plan_number(sheet, length).number;
        planned += number == KIWIMOUND_ACCEPTED;
        held += number == KIWIMOUND_HELD;
    }
    EXPECT(shortest == KIWIMOUND_LINE_BYTES && longest == KIWIMOUND_PRACTICE_BYTES);
    EXPECT(planned != 0 && held != 0 && planned + held == COUNT);
}

/* What a hall lends, and what is to become of it: number and line, and the listing and placing if these are written. */
struct hall {
    const char *sheet;
    size_t listing_bytes, placing_words;
    uint32_t number, line;
    const char *listing;
    uint64_t placing[KIWIMOUND_PLACING_WORDS];
};

#define WHOLE KIWIMOUND_LISTING_BYTES, KIWIMOUND_PLACING_WORDS

static uint8_t listings[KIWIMOUND_MAX_HALLS][KIWIMOUND_LISTING_BYTES + SPARE];
static uint64_t placings[KIWIMOUND_MAX_HALLS][LENT_WORDS];

static kiwimound_halls plan_halls(uint32_t limit, uint32_t count, const struct hall halls[KIWIMOUND_MAX_HALLS])
{
#define LEND_HALL(h) \
    (const uint8_t *)halls[h].sheet, strlen(halls[h].sheet), listings[h], halls[h].listing_bytes, placings[h], \
        halls[h].placing_words
    memset(listings, GUARD, sizeof listings);
    memset(placings, GUARD, sizeof placings);
    return kiwimound_plan_halls(limit, count, LEND_HALL(0), LEND_HALL(1), LEND_HALL(2), LEND_HALL(3));
#undef LEND_HALL
}

/* The answer of hall h, from 0, is this one, and its buffers hold this at their front and as before after it. */
static bool is_hall(size_t h, kiwimound_planned p, const struct hall *expected)
{
    const size_t length = expected->listing == NULL ? 0 : strlen(expected->listing);
    const size_t size = expected->listing == NULL ? 0 : sizeof expected->placing;
    return p.number == expected->number && p.line == expected->line && p.length == length &&
           memcmp(listings[h], expected->listing == NULL ? "" : expected->listing, length) == 0 &&
           memcmp(placings[h], expected->placing, size) == 0 &&
           kept(listings[h], sizeof listings[h], length) && kept(placings[h], sizeof placings[h], size);
}

/* The halls are planned as expected. Those past `count` are not there: zeros, and nothing changed. */
static bool are_halls(uint32_t limit, uint32_t count, const struct hall halls[KIWIMOUND_MAX_HALLS])
{
    static const struct hall absent;
    const kiwimound_halls planned = plan_halls(limit, count, halls);
    bool are = planned.number == 0 && planned.line == 0;
    for (size_t h = 0; h < KIWIMOUND_MAX_HALLS; h++)
        are = are && is_hall(h, planned.hall[h], h < count ? &halls[h] : &absent);
    return are;
}

/* What planning alone makes of three days, for halls that the limit does not reach. */
#define FOUR_SLOTS_HALL FOUR_SLOTS, WHOLE, 0, 0, FOUR_SLOTS_PLAN, {1, 1, 2 | 4, 2}
#define HELD_HALL HELD, WHOLE, KIWIMOUND_HELD, 0, HELD_LISTING, {0}
#define ONE_FEEDING_HALL \
    ONE_FEEDING, WHOLE, 0, 0, \
        "PLAN\n" \
        "     2     1     2     1\n" \
        "     1     1     2     0\n" \
        "     1     3     3     2\n" \
        "     3     1     1     1\n" \
        "     0     4     0     0\n", \
        {0, 0, 1}
/* A hall that is refused for its length, and one whose buffers are too short though its sheet has a plan. */
#define NO_SHEET_HALL "", WHOLE, KIWIMOUND_BAD_LENGTH, 0, NULL, {0}
#define SHORT_HALL \
    FOUR_SLOTS, KIWIMOUND_LISTING_BYTES - 1, KIWIMOUND_PLACING_WORDS, KIWIMOUND_SHORT_BUFFER, 0, NULL, {0}

/* Two blowers for four halls. The first takes 1, 1, 2 and 1 of them, so that the others have 1, 1, 0 and 1 in the slots
 * from 1 on; the second then takes the one in slot 2, and the third finds none in the slots 2 and 3. */
static void test_halls(void)
{
    static const struct hall halls[] = {
        {FOUR_SLOTS_HALL},
        {ONE_FEEDING, WHOLE, 0, 0, /* alone it would be fed in slot 3 */
         "PLAN\n"
         "     2     1     3     1\n"
         "     1     1     1     0\n"
         "     1     2     2     2\n"
         "     1     3     3     0\n"
         "     2     1     1     1\n"
         "     0     4     0     0\n",
         {0, 1}},
        {"     3     1     1     1\n"
         "     5     2     3     1\n",
         WHOLE, KIWIMOUND_HELD, 0,
         "HELD\n"
         "    12     2     1     0\n"
         "     2     0     0     0\n"
         "     3     0     0     0\n",
         {0}},
        {"     4     2     0     2\n" /* nothing is taken by the hall before */
         "     1     1     4     1\n"
         "     2     1     4     1\n",
         WHOLE, 0, 0,
         "PLAN\n"
         "     2     2     4     2\n"
         "     1     1     1     2\n"
         "     1     2     3     0\n"
         "     1     4     4     2\n"
         "     2     1     4     0\n"
         "     1     1     1     1\n"
         "     4     1     2     1\n"
         "     0     4     0     0\n",
         {1, 0, 0, 2}},
    };
    for (uint32_t count = 1; count <= KIWIMOUND_MAX_HALLS; count++)
        EXPECT(are_halls(2, count, halls));

    /* Whatever a hall lends, those before it are planned as they were, and those after a refused one as without it. */
    static const struct hall others[] = {
        {NO_SHEET_HALL},
        {SHORT_HALL},
        {FOUR_SLOTS, KIWIMOUND_LISTING_BYTES, KIWIMOUND_PLACING_WORDS - 1, KIWIMOUND_SHORT_BUFFER, 0, NULL, {0}},
        {HELD, 0, 0, KIWIMOUND_SHORT_BUFFER, 0, NULL, {0}},
        {BAD_WINDOW, 0, 0, KIWIMOUND_BAD_WINDOW, 3, NULL, {0}},
        {BAD_MEAL, WHOLE, KIWIMOUND_BAD_MEAL, 3, NULL, {0}},
    };
    for (size_t i = 0; i < sizeof others / sizeof *others; i++) {
        EXPECT(are_halls(2, 4, (const struct hall[]){halls[0], halls[1], others[i], halls[3]}));
        EXPECT(are_halls(2, 4, (const struct hall[]){halls[0], halls[1], halls[2], others[i]}));
        EXPECT(are_halls(2, 3, (const struct hall[]){others[i], halls[0], halls[1], others[i]}));
        EXPECT(are_halls(2, 4, (const struct hall[]){halls[0], others[i], others[i], halls[1]}));
    }
    /* Longer buffers keep what comes after. */
    struct hall longer[KIWIMOUND_MAX_HALLS];
    memcpy(longer, halls, sizeof longer);
    for (size_t h = 0; h < KIWIMOUND_MAX_HALLS; h++) {
        longer[h].listing_bytes += SPARE;
        longer[h].placing_words += h;
    }
    EXPECT(are_halls(2, 4, longer));

    /* The other way round the first hall has its feeding in slot 3, and the second one blower there. */
    static const struct hall exchanged[KIWIMOUND_MAX_HALLS] = {
        {ONE_FEEDING_HALL},
        {FOUR_SLOTS, WHOLE, 0, 0,
         "PLAN\n"
         "     9     2     4     5\n"
         "     1     1     4     2\n"
         "     2     1     1     0\n"
         "     2     2     2     2\n"
         "     2     3     4     0\n"
         "     1     1     1     1\n"
         "     2     1     1     2\n"
         "     2     2     2     1\n"
         "     3     1     3     1\n"
         "     4     1     2     2\n"
         "     0    16     0     0\n",
         {1, 1 | 2, 4, 2}},
        {NO_SHEET_HALL},
        {NO_SHEET_HALL},
    };
    EXPECT(are_halls(2, 2, exchanged));
}

static void test_halls_alone(void)
{
    /* From 5 on the limit leaves each hall all its blowers: those that are planned take up to 2, 2 and 1 in a slot. */
    static const struct hall alone[] = {
        {FOUR_SLOTS_HALL},
        {HELD_HALL},
        {TWO_MEALS, WHOLE, 0, 0, TWO_MEALS_PLAN, {1, 4, 1 | 4, 4, 0, 0, 0, 0, 2, 2}},
        {ONE_FEEDING_HALL},
    };
    for (uint32_t limit = 5; limit <= KIWIMOUND_MAX_LIMIT; limit++)
        EXPECT(are_halls(limit, 4, alone));

    /* One blower: a held hall takes nothing, and a hall takes nothing after its day. */
    static const struct hall one_blower[] = {
        {HELD_HALL},
        {FOUR_SLOTS, WHOLE, KIWIMOUND_HELD, 0, /* five feedings in four slots; the first three have four of them */
         "HELD\n"
         "    12     3     4     3\n"
         "     1     0     0     0\n"
         "     2     0     0     0\n"
         "     3     0     0     0\n",
         {0}},
        {"     1     1     0     1\n"
         "     9     1     1     1\n",
         WHOLE, 0, 0,
         "PLAN\n"
         "     1     1     1     1\n"
         "     1     1     1     2\n"
         "     1     1     9     1\n"
         "     0     2     0     0\n",
         {1}},
        {ONE_FEEDING_HALL},
    };
    EXPECT(are_halls(1, 4, one_blower));
}

/* 14 comes before everything that the halls lend, and changes nothing. */
static void test_halls_refused(void)
{
    static const struct hall halls[] = {{FOUR_SLOTS_HALL}, {NO_SHEET_HALL}, {SHORT_HALL}, {HELD_HALL}};
    static const struct {
        uint32_t limit, count;
    } bad[] = {
        {0, 0}, {0, 1}, {0, 4}, {33, 1}, {33, 4}, {256 + 8, 2}, {UINT32_MAX, 2}, /* the limit */
        {1, 0}, {32, 0}, {1, 5}, {32, 5}, {8, 256 + 2}, {8, UINT32_MAX},         /* the halls */
    };
    for (size_t i = 0; i < sizeof bad / sizeof *bad; i++) {
        const kiwimound_halls refused = plan_halls(bad[i].limit, bad[i].count, halls);
        EXPECT(refused.number == KIWIMOUND_BAD_HALLS && refused.line == 0);
        for (size_t h = 0; h < KIWIMOUND_MAX_HALLS; h++) {
            EXPECT(refused.hall[h].number == 0 && refused.hall[h].line == 0 && refused.hall[h].length == 0);
            EXPECT(kept(listings[h], sizeof listings[h], 0) && kept(placings[h], sizeof placings[h], 0));
        }
    }
    /* Halls that are not there lend no bytes, at an address that another hall's memory has. */
    memset(listings, GUARD, sizeof listings);
    memset(placings, GUARD, sizeof placings);
    const uint8_t *sheet = (const uint8_t *)FOUR_SLOTS;
#define NO_HALL sheet, 0, listings[0], 0, placings[0], 0
    const kiwimound_halls planned =
        kiwimound_plan_halls(2, 1, LEND(FOUR_SLOTS), listings[0], KIWIMOUND_LISTING_BYTES, placings[0],
                             KIWIMOUND_PLACING_WORDS, NO_HALL, NO_HALL, NO_HALL);
#undef NO_HALL
    EXPECT(planned.number == 0 && planned.line == 0 && is_hall(0, planned.hall[0], &halls[0]));
}

/* How many feedings a hall has in a slot, from 0. */
static uint32_t feedings_in(size_t h, size_t slot)
{
    uint32_t feedings = 0;
    for (uint64_t word = placings[h][slot]; word != 0; word &= word - 1)
        feedings++;
    return feedings;
}

/* Practice sheets in groups of four, behind limits up to twice the blowers of one hall: no slot has more busy blowers
 * than the limit, nor a hall more than its own, and every ration of a planned hall has its volume in its window. */
static void test_halls_of_practice(void)
{
    static uint8_t sheets[KIWIMOUND_MAX_HALLS][KIWIMOUND_PRACTICE_BYTES];
    size_t lengths[KIWIMOUND_MAX_HALLS];
    uint32_t planned = 0, held = 0, held_by_limit = 0, at_limit = 0;
    for (uint32_t group = 0; group < 48; group++) {
        const uint32_t limit = 1 + group % (2 * KIWIMOUND_MAX_BLOWERS);
        uint32_t used[KIWIMOUND_MAX_SLOTS] = {0};
        for (uint32_t h = 0; h < KIWIMOUND_MAX_HALLS; h++)
            lengths[h] = kiwimound_practice(KIWIMOUND_MAX_HALLS * group + h, sheets[h], sizeof sheets[h]).length;
#define LEND_HALL(h) sheets[h], lengths[h], listings[h], sizeof listings[h], placings[h], LENT_WORDS
        const kiwimound_halls p =
            kiwimound_plan_halls(limit, KIWIMOUND_MAX_HALLS, LEND_HALL(0), LEND_HALL(1), LEND_HALL(2), LEND_HALL(3));
#undef LEND_HALL
        EXPECT(p.number == 0 && p.line == 0);
        for (size_t h = 0; h < KIWIMOUND_MAX_HALLS; h++) {
            const kiwimound_reading r = kiwimound_read(sheets[h], lengths[h]);
            const bool is_planned_alone = kiwimound_plan_number(sheets[h], lengths[h]).number == 0;
            EXPECT(p.hall[h].line == 0 && (p.hall[h].number == 0 || p.hall[h].number == KIWIMOUND_HELD));
            EXPECT(is_planned_alone || p.hall[h].number == KIWIMOUND_HELD);
            planned += p.hall[h].number == 0;
            held += p.hall[h].number != 0;
            held_by_limit += p.hall[h].number != 0 && is_planned_alone;
            for (size_t t = 0; t < KIWIMOUND_MAX_SLOTS; t++) {
                EXPECT(feedings_in(h, t) <= (p.hall[h].number == 0 ? r.blowers : 0));
                used[t] += feedings_in(h, t);
            }
            for (uint32_t i = 0; p.hall[h].number == 0 && i < r.rations; i++) {
                uint32_t fed = 0, volume = r.numbers[4 * i + 3];
                for (uint32_t t = r.numbers[4 * i + 1]; t <= r.numbers[4 * i + 2]; t++)
                    fed += (placings[h][t - 1] >> i & 1) != 0;
                EXPECT(fed == volume);
            }
        }
        for (size_t t = 0; t < KIWIMOUND_MAX_SLOTS; t++) {
            EXPECT(used[t] <= limit);
            at_limit += used[t] == limit;
        }
    }
    EXPECT(planned > 10 && held > 10 && held_by_limit > 10 && at_limit > 100);
}

/* A sheet for each of the numbers 1 to 9 and 13, and the line that it names. */
static const struct {
    const char *sheet;
    uint32_t number, line;
} faulty_sheets[] = {
    {"", KIWIMOUND_BAD_LENGTH, 0},
    {"     3     1     1    00\n", KIWIMOUND_BAD_FIELD, 1},
    {"    97     1     1     0\n", KIWIMOUND_BAD_SLOTS, 1},
    {"     3     9     1     0\n", KIWIMOUND_BAD_BLOWERS, 1},
    {"     3     1  2001     0\n", KIWIMOUND_BAD_WAKE, 1},
    {"     3     1     1     1\n", KIWIMOUND_BAD_RATIONS, 1},
    {"     3     1     1     1\n     0     1     3     1\n", KIWIMOUND_BAD_TANK, 2},
    {BAD_WINDOW, KIWIMOUND_BAD_WINDOW, 3},
    {"     3     1     1     1\n     1     1     3     4\n", KIWIMOUND_BAD_VOLUME, 2},
    {BAD_MEAL, KIWIMOUND_BAD_MEAL, 3},
};
enum { FAULTY_SHEETS = sizeof faulty_sheets / sizeof *faulty_sheets };

/* Nothing planned: number and line are these, length and share 0, and every byte and word keeps its value. */
static bool is_without_share(const char *sheet, size_t bytes, size_t words, uint32_t number, uint32_t line)
{
    guard();
    const kiwimound_share_answer a =
        kiwimound_plan_share((const uint8_t *)sheet, strlen(sheet), listing, bytes, placing, words);
    return a.number == number && a.line == line && a.length == 0 && a.share == 0 &&
           kept(listing, sizeof listing, 0) && kept(placing, sizeof placing, 0);
}

/* The share, the listing and the placing are these, with buffers just long enough and longer; with either of them one
 * too short, nothing is planned. */
static bool has_share(const char *sheet, uint32_t share, const char *expected,
                      const uint64_t words[KIWIMOUND_PLACING_WORDS])
{
    const size_t bytes = KIWIMOUND_LISTING_BYTES, count = KIWIMOUND_PLACING_WORDS;
    for (size_t more = 0; more <= SPARE; more++) {
        guard();
        const kiwimound_share_answer a = kiwimound_plan_share((const uint8_t *)sheet, strlen(sheet), listing,
                                                              bytes + more, placing, count + more);
        const kiwimound_planned p = {a.number, a.line, a.length};
        if (p.number != 0 || p.line != 0 || a.share != share || !is_listing(p, expected) || !is_placing(words))
            return false;
    }
    return is_without_share(sheet, bytes - 1, count, KIWIMOUND_SHORT_BUFFER, 0) &&
           is_without_share(sheet, bytes, count - 1, KIWIMOUND_SHORT_BUFFER, 0);
}

/* The sheet has a plan as it is: share 100, and both buffers are left as planning with both leaves them. */
static bool is_whole(const uint8_t *sheet, size_t length)
{
    static uint8_t planned[sizeof listing];
    static uint64_t placed[LENT_WORDS];
    guard();
    const kiwimound_planned p = kiwimound_plan_both(sheet, length, listing, sizeof listing, placing, LENT_WORDS);
    memcpy(planned, listing, sizeof planned);
    memcpy(placed, placing, sizeof placed);
    guard();
    const kiwimound_share_answer a =
        kiwimound_plan_share(sheet, length, listing, sizeof listing, placing, LENT_WORDS);
    return p.number == 0 && a.number == 0 && a.line == 0 && a.length == p.length && a.share == 100 &&
           memcmp(planned, listing, sizeof planned) == 0 && memcmp(placed, placing, sizeof placed) == 0;
}

static void test_share(void)
{
    static const uint64_t four_slots[KIWIMOUND_PLACING_WORDS] = {1, 1, 2 | 4, 2}, none[KIWIMOUND_PLACING_WORDS] = {0};
    EXPECT(has_share(FOUR_SLOTS, 100, FOUR_SLOTS_PLAN, four_slots));
    EXPECT(is_whole(LEND(FOUR_SLOTS)) && is_whole(LEND(ONE_FEEDING)) && is_whole(LEND(LAST_SLOT)));
    EXPECT(is_whole(LEND(TWO_MEALS)) && is_whole(LEND(SITE_TANKS)) && is_whole(LEND("     3     1     4     0\n")));

    /* One feeding is left of each ration, 1.98 rounded down: tank 1 in slot 2, so that slot 1 is idle. */
    static const uint64_t held[KIWIMOUND_PLACING_WORDS] = {0, 1, 2};
    EXPECT(has_share(HELD, 99,
                     "PLAN\n"
                     "     3     1     2     2\n"
                     "     1     1     1     0\n"
                     "     1     2     3     2\n"
                     "     2     1     1     1\n"
                     "     3     1     2     1\n"
                     "     0     5     0     0\n",
                     held));

    /* Shares 75 to 79 leave three feedings of tank 1, of tank 3 and in the first meal of tank 4, and share 80 leaves
     * eleven in slots 1 to 5. Tank 2 is not fed, and the rations after it keep their bits. */
    static const uint64_t short_day[KIWIMOUND_PLACING_WORDS] = {1, 1 | 4, 1 | 8, 4 | 8, 4 | 8, 0, 0, 0, 16, 16};
    EXPECT(has_share("    10     2     3     5\n"
                     "     1     1     5     5\n"
                     "     2     2     2     1\n"
                     "     3     1     5     5\n"
                     "     4     1     5     4\n"
                     "     4     8    10     3\n",
                     79,
                     "PLAN\n"
                     "    20     3     6    11\n"
                     "     1     1     5     2\n"
                     "     1     6     8     0\n"
                     "     1     9    10     2\n"
                     "     2     1     1     0\n"
                     "     2     2     5     2\n"
                     "     2     6    10     0\n"
                     "     1     1     1     1\n"
                     "     2     1     1     2\n"
                     "     2     2     3     1\n"
                     "     3     1     1     3\n"
                     "     3     2     4     1\n"
                     "     4     1     3     2\n"
                     "     4     2     4     2\n"
                     "     5     1     3     3\n"
                     "     5     2     4     3\n"
                     "     9     1     4     1\n"
                     "    10     1     4     2\n"
                     "     0    36     0     0\n",
                     short_day));

    /* The first meal of tank 5 is cut to 0, the second to 3, and their parts count the feedings that are left. */
    static const uint64_t meals[KIWIMOUND_PLACING_WORDS] = {0, 0, 2, 2, 2, 4};
    EXPECT(has_share("     6     1     2     3\n"
                     "     5     1     2     1\n"
                     "     5     3     6     4\n"
                     "     6     3     6     2\n",
                     99,
                     "PLAN\n"
                     "     6     1     2     4\n"
                     "     1     1     2     0\n"
                     "     1     3     6     2\n"
                     "     3     1     5     1\n"
                     "     4     1     5     2\n"
                     "     5     1     5     3\n"
                     "     6     1     6     1\n"
                     "     0    11     0     0\n",
                     meals));

    /* Two rations of one feeding in the only slot: whatever is cut, neither is fed. */
    EXPECT(has_share("     1     1   200     2\n"
                     "     1     1     1     1\n"
                     "     2     1     1     1\n",
                     99,
                     "PLAN\n"
                     "     0     0     1     0\n"
                     "     1     1     1     0\n"
                     "     0     0     0     0\n",
                     none));

    /* The least share: 2 leaves each of 64 rations one feeding, in 50 slots of one blower, and 1 leaves none. */
    static char sheet[KIWIMOUND_SHEET_BYTES(KIWIMOUND_MAX_RATIONS) + 1];
    uint32_t numbers[4 * KIWIMOUND_MAX_RATIONS];
    for (uint32_t i = 0; i < KIWIMOUND_MAX_RATIONS; i++)
        memcpy(numbers + 4 * i, (uint32_t[]){i + 1, 1, 50, 50}, 4 * sizeof *numbers);
    const kiwimound_written w = kiwimound_write(50, 1, 1, KIWIMOUND_MAX_RATIONS, numbers, 4 * KIWIMOUND_MAX_RATIONS,
                                                (uint8_t *)sheet, sizeof sheet - 1);
    EXPECT(w.number == 0 && w.length == sizeof sheet - 1);
    EXPECT(has_share(sheet, 1,
                     "PLAN\n"
                     "     0     0     1     0\n"
                     "     1     1    50     0\n"
                     "     0     0     0     0\n",
                     none));
}

/* A sheet's own refusal comes before that of a buffer, and 12 is never given. */
static void test_share_refused(void)
{
    static const struct {
        size_t bytes, words;
    } few[] = {
        {KIWIMOUND_LISTING_BYTES - 1, KIWIMOUND_PLACING_WORDS},
        {KIWIMOUND_LISTING_BYTES, KIWIMOUND_PLACING_WORDS - 1},
        {KIWIMOUND_LISTING_BYTES - 1, KIWIMOUND_PLACING_WORDS - 1},
        {KIWIMOUND_LISTING_BYTES + SPARE, 0},
        {0, LENT_WORDS},
        {0, 0},
    };
    for (size_t i = 0; i < FAULTY_SHEETS; i++) {
        const char *sheet = faulty_sheets[i].sheet;
        const uint32_t number = faulty_sheets[i].number, line = faulty_sheets[i].line;
        EXPECT(is_without_share(sheet, KIWIMOUND_LISTING_BYTES, KIWIMOUND_PLACING_WORDS, number, line));
        for (size_t j = 0; j < sizeof few / sizeof *few; j++)
            EXPECT(is_without_share(sheet, few[j].bytes, few[j].words, number, line));
    }
    for (size_t j = 0; j < sizeof few / sizeof *few; j++) {
        EXPECT(is_without_share(FOUR_SLOTS, few[j].bytes, few[j].words, KIWIMOUND_SHORT_BUFFER, 0));
        EXPECT(is_without_share(HELD, few[j].bytes, few[j].words, KIWIMOUND_SHORT_BUFFER, 0));
    }
}

/* Of as many rations as there can be, those with odd numbers are cut to 0: every other bit, up to the last, is left to
 * the others, which have one feeding each. */
static void test_share_every_ration(void)
{
    static uint8_t sheet[KIWIMOUND_SHEET_BYTES(KIWIMOUND_MAX_RATIONS)];
    uint32_t numbers[4 * KIWIMOUND_MAX_RATIONS];
    for (uint32_t i = 1; i <= KIWIMOUND_MAX_RATIONS; i++)
        memcpy(numbers + 4 * (i - 1), i % 2 == 1 ? (uint32_t[]){i, 1, 1, 1} : (uint32_t[]){i, 1, 4, 2},
               4 * sizeof *numbers);
    const kiwimound_written w = kiwimound_write(4, 8, 1, KIWIMOUND_MAX_RATIONS, numbers, 4 * KIWIMOUND_MAX_RATIONS,
                                                sheet, sizeof sheet);
    EXPECT(w.number == 0 && w.length == sizeof sheet);
    guard();
    const kiwimound_share_answer a =
        kiwimound_plan_share(sheet, sizeof sheet, listing, sizeof listing, placing, LENT_WORDS);
    EXPECT(a.number == 0 && a.line == 0 && a.length != 0 && a.share == 99);
    EXPECT((placing[0] | placing[1] | placing[2] | placing[3]) == UINT64_C(0xAAAAAAAAAAAAAAAA));
    unsigned feedings = 0;
    for (size_t t = 0; t < KIWIMOUND_MAX_SLOTS; t++)
        for (uint64_t word = placing[t]; word != 0; word &= word - 1)
            feedings++;
    EXPECT(feedings == 32 && kept(placing, sizeof placing, KIWIMOUND_PLACING_WORDS * sizeof *placing));
}

/* Writes an accepted sheet cut to a share, without the rations that are cut to 0, which a sheet can't have. Gives its
 * length. */
static size_t write_cut(const kiwimound_reading *r, uint32_t share, uint8_t sheet[KIWIMOUND_PRACTICE_BYTES])
{
    uint32_t numbers[4 * KIWIMOUND_MAX_RATIONS], n = 0;
    for (uint32_t i = 0; i < r->rations; i++) {
        const uint32_t *ration = r->numbers + 4 * i, volume = ration[3] * share / 100;
        if (volume != 0)
            memcpy(numbers + 4 * n++, (uint32_t[]){ration[0], ration[1], ration[2], volume}, 4 * sizeof *numbers);
    }
    const kiwimound_written w = kiwimound_write(r->slots, r->blowers, r->wake, n, numbers, 4 * (size_t)n, sheet,
                                                KIWIMOUND_PRACTICE_BYTES);
    EXPECT(w.number == 0 && w.length == KIWIMOUND_SHEET_BYTES(n));
    return w.length;
}

/* Practice sheets, of which more than half are held. A ration has the cut volume in its window; the cut sheet, without
 * the rations that are not fed, has the same listing; and the sheet of the next share is held. */
static void test_share_of_practice(void)
{
    static uint8_t sheet[KIWIMOUND_PRACTICE_BYTES], cut[KIWIMOUND_PRACTICE_BYTES], planned[KIWIMOUND_LISTING_BYTES];
    unsigned whole = 0, shorter = 0, unfed = 0;
    for (uint32_t seed = 0; seed < 300; seed++) {
        const size_t length = kiwimound_practice(seed, sheet, sizeof sheet).length;
        if (kiwimound_plan_number(sheet, length).number == 0) {
            EXPECT(is_whole(sheet, length));
            whole++;
            continue;
        }
        const kiwimound_reading r = kiwimound_read(sheet, length);
        guard();
        const kiwimound_share_answer a =
            kiwimound_plan_share(sheet, length, listing, sizeof listing, placing, LENT_WORDS);
        EXPECT(a.number == 0 && a.line == 0 && a.share >= 1 && a.share < 100);
        for (uint32_t i = 0; i < r.rations; i++) {
            const uint32_t *ration = r.numbers + 4 * i;
            uint32_t fed = 0, in_window = 0;
            for (uint32_t t = 1; t <= KIWIMOUND_MAX_SLOTS; t++) {
                const bool is_fed = (placing[t - 1] >> i & 1) != 0;
                fed += is_fed;
                in_window += is_fed && ration[1] <= t && t <= ration[2];
            }
            EXPECT(fed == ration[3] * a.share / 100 && in_window == fed);
            unfed += fed == 0;
        }
        const size_t cut_length = write_cut(&r, a.share, cut);
        const kiwimound_planned p = kiwimound_plan(cut, cut_length, planned, sizeof planned);
        EXPECT(p.number == 0 && p.length == a.length && memcmp(planned, listing, p.length) == 0);
        EXPECT(kept(listing, sizeof listing, a.length));
        EXPECT(kiwimound_plan_number(cut, write_cut(&r, a.share + 1, cut)).number == KIWIMOUND_HELD);
        shorter++;
    }
    EXPECT(whole > 50 && shorter > 150 && unfed > 200);
}

static bool is_compared(const char *first, const char *second, uint32_t number, uint32_t line, uint32_t order)
{
    const kiwimound_compared c =
        kiwimound_compare((const uint8_t *)first, strlen(first), (const uint8_t *)second, strlen(second));
    return c.number == number && c.line == line && c.order == order;
}

/* Tanks 1 to 7, all in slot 1. */
#define SEVEN_TANKS \
    "     1     1     1     1\n" \
    "     2     1     1     1\n" \
    "     3     1     1     1\n" \
    "     4     1     1     1\n" \
    "     5     1     1     1\n" \
    "     6     1     1     1\n" \
    "     7     1     1     1\n"

/* Days in the order of their plans; equal ranks have the same plan. Beside each are the tanks fed, slot by slot, with 0
 * where there are none. Most windows are as long as their volume, so that the sheet leaves its plan no choice. */
static const struct {
    uint32_t rank;
    const char *sheet;
} ranked[] = {
    {1, "     1     1     0     0\n"}, /* 0 */
    {2, "     1     8     0     7\n" SEVEN_TANKS}, /* 1 2 3 4 5 6 7, which ends before the next */
    {3, "     1     8     0     8\n" SEVEN_TANKS "     8     1     1     1\n"}, /* 1 2 3 4 5 6 7 8 */
    {4, "     1     8     0     8\n" SEVEN_TANKS "     9     1     1     1\n"}, /* 1 2 3 4 5 6 7 9 */
    {5, "     1     1     0     1\n" /* 4: fewer tanks, but the lists above begin with a smaller one */
        "     4     1     1     1\n"},
    {6, "     1     2     0     2\n" /* 4 9 */
        "     4     1     1     1\n"
        "     9     1     1     1\n"},
    {7, "     1     1     0     1\n" /* 5 */
        "     5     1     1     1\n"},
    {7, "     1     8   200     1\n" /* 5, with other blowers and wake cost */
        "     5     1     1     1\n"},
    {8, "     2     1     0     0\n"}, /* 0, 0 */
    {9, "     2     1     0     2\n" /* 1, 3 */
        "     1     1     1     1\n"
        "     3     2     2     1\n"},
    {10, "     2     1     0     2\n" /* 3, 1: in slot 2 it would come first */
         "     1     2     2     1\n"
         "     3     1     1     1\n"},
    {11, "     2     1     0     2\n" /* 5, 6: ration 1 in slot 1, where the day above has ration 2 */
         "     5     1     1     1\n"
         "     6     2     2     1\n"},
    {12, "     2     1     0     1\n" /* 9, 9 */
         "     9     1     2     2\n"},
    {12, "     2     1     0     2\n" /* 9, 9 as two meals */
         "     9     1     1     1\n"
         "     9     2     2     1\n"},
    {13, "     3     1     4     0\n"}, /* 0, 0, 0: D alone puts it after all above */
    {14, ONE_FEEDING}, /* 0, 0, 1 */
    {14, "     3     2   200     1\n" /* 0, 0, 1 from another window */
         "     1     2     3     1\n"},
    {15, LAST_SLOT}, /* 0, 0, 7: the counts of the two above */
    {16, "     3     1     1     1\n" /* 1, 0, 0 */
         "     1     1     1     1\n"},
    {17, "     3     1     2     2\n" /* 1, 0, 2 */
         "     1     1     1     1\n"
         "     2     3     3     1\n"},
    {18, "     3     2     1     3\n" /* 1 3, 2 3, 3: document 01 */
         "     1     1     2     1\n"
         "     2     1     2     1\n"
         "     3     1     3     3\n"},
    {18, "     3     2     1     3\n" /* 1 3, 2 3, 3 */
         "     1     1     1     1\n"
         "     2     2     2     1\n"
         "     3     1     3     3\n"},
    {19, "     3     1     1     1\n" /* 2, 0, 0 */
         "     2     1     1     1\n"},
    {20, "     3     2     1     3\n" /* 2 3, 1 3, 3: the counts of rank 18 */
         "     1     2     2     1\n"
         "     2     1     1     1\n"
         "     3     1     3     3\n"},
    {21, "     4     1     1     1\n" /* 0, 0, 1, 0: D alone differs from rank 14 */
         "     1     3     3     1\n"},
    {22, "     4     1     2     2\n" /* 1, 1, 2, 2 */
         "     1     1     2     2\n"
         "     2     3     4     2\n"},
    {23, FOUR_SLOTS}, /* 1, 1, 2 3, 2: in slot 3 the list above ends first */
    {23, "     4     2     0     3\n" /* 1, 1, 2 3, 2 */
         "     1     1     2     2\n"
         "     2     3     4     2\n"
         "     3     3     3     1\n"},
    {24, "     4     2     0     3\n" /* 1, 1, 2 3, 3: slot 4 alone differs, and not in its count */
         "     1     1     2     2\n"
         "     2     3     3     1\n"
         "     3     3     4     2\n"},
    {25, TWO_MEALS}, /* 1, 2, 1 2, 2, 0, 0, 0, 0, 1, 1 */
    {25, "    10     2     0     4\n" /* the same, tank 2 being ration 4 here and 3 above */
         "     1     1     1     1\n"
         "     1     3     3     1\n"
         "     1     9    10     2\n"
         "     2     2     4     3\n"},
};

static void test_compare(void)
{
    EXPECT(KIWIMOUND_ORDER_NO == 0 && KIWIMOUND_ORDER_SAME == 1);
    EXPECT(KIWIMOUND_ORDER_BEFORE == 2 && KIWIMOUND_ORDER_AFTER == 3);
    EXPECT(is_compared(ONE_FEEDING, LAST_SLOT, 0, 0, KIWIMOUND_ORDER_BEFORE));
    EXPECT(is_compared(LAST_SLOT, ONE_FEEDING, 0, 0, KIWIMOUND_ORDER_AFTER));
    EXPECT(is_compared(FOUR_SLOTS, ONE_FEEDING, 0, 0, KIWIMOUND_ORDER_AFTER));
    EXPECT(is_compared(FOUR_SLOTS, FOUR_SLOTS, 0, 0, KIWIMOUND_ORDER_SAME));
    EXPECT(is_compared(SITE_TANKS, SITE_TANKS, 0, 0, KIWIMOUND_ORDER_SAME));
    for (size_t i = 0; i < sizeof ranked / sizeof *ranked; i++)
        for (size_t j = 0; j < sizeof ranked / sizeof *ranked; j++) {
            const uint32_t order = ranked[i].rank < ranked[j].rank   ? KIWIMOUND_ORDER_BEFORE
                                   : ranked[i].rank > ranked[j].rank ? KIWIMOUND_ORDER_AFTER
                                                                     : KIWIMOUND_ORDER_SAME;
            EXPECT(is_compared(ranked[i].sheet, ranked[j].sheet, 0, 0, order));
        }
}

/* All refusals of the first sheet, 12 too, come before those of the second. */
static void test_compare_refused(void)
{
    const uint32_t no = KIWIMOUND_ORDER_NO;
    for (size_t i = 0; i < FAULTY_SHEETS; i++) {
        const char *sheet = faulty_sheets[i].sheet;
        const uint32_t number = faulty_sheets[i].number, line = faulty_sheets[i].line;
        EXPECT(is_compared(sheet, FOUR_SLOTS, number, line, no));
        EXPECT(is_compared(FOUR_SLOTS, sheet, number, line, no));
        EXPECT(is_compared(sheet, HELD, number, line, no));
        EXPECT(is_compared(HELD, sheet, KIWIMOUND_HELD, 0, no));
        for (size_t j = 0; j < FAULTY_SHEETS; j++)
            EXPECT(is_compared(sheet, faulty_sheets[j].sheet, number, line, no));
    }
    EXPECT(is_compared(HELD, FOUR_SLOTS, KIWIMOUND_HELD, 0, no));
    EXPECT(is_compared(FOUR_SLOTS, HELD, KIWIMOUND_HELD, 0, no));
    EXPECT(is_compared(HELD, HELD, KIWIMOUND_HELD, 0, no));
}

/* A sheet of as many slots and rations as there can be, whose ration i has slot 97 - i alone. The buffer's last byte
 * stays 0. */
static void write_tanks(char sheet[KIWIMOUND_SHEET_BYTES(KIWIMOUND_MAX_RATIONS) + 1],
                        const uint32_t tanks[KIWIMOUND_MAX_RATIONS])
{
    uint32_t numbers[4 * KIWIMOUND_MAX_RATIONS];
    for (uint32_t i = 0; i < KIWIMOUND_MAX_RATIONS; i++) {
        const uint32_t slot = KIWIMOUND_MAX_SLOTS - i;
        memcpy(numbers + 4 * i, (uint32_t[]){tanks[i], slot, slot, 1}, 4 * sizeof *numbers);
    }
    const kiwimound_written w =
        kiwimound_write(KIWIMOUND_MAX_SLOTS, 1, 1, KIWIMOUND_MAX_RATIONS, numbers, 4 * KIWIMOUND_MAX_RATIONS,
                        (uint8_t *)sheet, KIWIMOUND_SHEET_BYTES(KIWIMOUND_MAX_RATIONS));
    EXPECT(w.number == 0 && w.length == KIWIMOUND_SHEET_BYTES(KIWIMOUND_MAX_RATIONS));
}

/* Each of 64 rations in turn has a greater tank, so that its slot alone differs. If then the next ration, which has the
 * slot before, has a smaller tank, that slot decides. */
static void test_compare_every_ration(void)
{
    static char sheet[KIWIMOUND_SHEET_BYTES(KIWIMOUND_MAX_RATIONS) + 1], other[sizeof sheet];
    uint32_t tanks[KIWIMOUND_MAX_RATIONS];
    for (uint32_t i = 0; i < KIWIMOUND_MAX_RATIONS; i++)
        tanks[i] = 3 * (i + 1);
    write_tanks(sheet, tanks);
    for (uint32_t i = 0; i < KIWIMOUND_MAX_RATIONS; i++) {
        tanks[i]++;
        write_tanks(other, tanks);
        EXPECT(is_compared(sheet, other, 0, 0, KIWIMOUND_ORDER_BEFORE));
        EXPECT(is_compared(other, sheet, 0, 0, KIWIMOUND_ORDER_AFTER));
        if (i + 1 < KIWIMOUND_MAX_RATIONS) {
            tanks[i + 1]--;
            write_tanks(other, tanks);
            EXPECT(is_compared(sheet, other, 0, 0, KIWIMOUND_ORDER_AFTER));
            EXPECT(is_compared(other, sheet, 0, 0, KIWIMOUND_ORDER_BEFORE));
            tanks[i + 1]++;
        }
        tanks[i]--;
    }
}

/* Every call that is lent a sheet refuses it so, with buffers long enough, and changes nothing. */
static bool is_refused(const char *sheet, uint32_t number, uint32_t line)
{
    static const uint8_t marks[KIWIMOUND_MAX_SLOTS];
    static const uint32_t bounds[KIWIMOUND_MAX_SLOTS];
    const uint8_t *bytes = (const uint8_t *)sheet;
    const size_t length = strlen(sheet);
    guard();
    const kiwimound_reading r = kiwimound_read(bytes, length);
    bool is = r.number == number && r.line == line && r.slots == 0 && r.blowers == 0 && r.wake == 0 && r.rations == 0;
    for (size_t i = 0; i < 256; i++)
        is = is && r.numbers[i] == 0;
    static const uint32_t tanks[] = {1, 2, 250000, 250001, 999999};
    for (size_t i = 0; i < sizeof tanks / sizeof *tanks; i++) {
        const kiwimound_part part = kiwimound_find(bytes, length, tanks[i]);
        is = is && part.start == 0 && part.length == 0;
    }
    const kiwimound_shortfall_answer s = kiwimound_shortfall(bytes, length, marks, KIWIMOUND_MAX_SLOTS);
    is = is && s.number == number && s.line == line && s.shortfall == 0;
    const kiwimound_bounds_answer b =
        kiwimound_bounds(bytes, length, bounds, KIWIMOUND_MAX_SLOTS, bounds, KIWIMOUND_MAX_SLOTS);
    is = is && b.number == number && b.line == line && !b.yes;
    const kiwimound_planned plans[] = {
        kiwimound_plan(bytes, length, listing, sizeof listing),
        kiwimound_plan_placing(bytes, length, placing, LENT_WORDS),
        kiwimound_plan_both(bytes, length, listing, sizeof listing, placing, LENT_WORDS),
        kiwimound_plan_number(bytes, length),
    };
    for (size_t i = 0; i < sizeof plans / sizeof *plans; i++)
        is = is && plans[i].number == number && plans[i].line == line && plans[i].length == 0;
    const kiwimound_share_answer share =
        kiwimound_plan_share(bytes, length, listing, sizeof listing, placing, LENT_WORDS);
    is = is && share.number == number && share.line == line && share.length == 0 && share.share == 0;
    const struct hall hall = {sheet, WHOLE, number, line, NULL, {0}};
    is = is && are_halls(1, 4, (const struct hall[]){hall, hall, hall, hall});
    is = is && is_compared(sheet, FOUR_SLOTS, number, line, KIWIMOUND_ORDER_NO);
    is = is && is_compared(FOUR_SLOTS, sheet, number, line, KIWIMOUND_ORDER_NO);
    const kiwimound_causes_answer c = kiwimound_causes(bytes, length, causes, sizeof causes);
    is = is && c.number == number && c.line == line && c.length == 0 && !c.cut;
    return is && kept(listing, sizeof listing, 0) && kept(placing, sizeof placing, 0) &&
           kept(causes, sizeof causes, 0);
}

/* Nothing listed: number and line are these, and every byte keeps its value. */
static bool is_without_causes(const char *sheet, size_t lent, uint32_t number, uint32_t line)
{
    guard();
    const kiwimound_causes_answer a = kiwimound_causes((const uint8_t *)sheet, strlen(sheet), causes, lent);
    return a.number == number && a.line == line && a.length == 0 && !a.cut && kept(causes, sizeof causes, 0);
}

/* The listing is this one, with a buffer just long enough and with longer ones; one byte less is refused. */
static bool has_causes(const char *sheet, const char *expected)
{
    static const size_t lent[] = {KIWIMOUND_CAUSES_BYTES, KIWIMOUND_CAUSES_BYTES + SPARE, sizeof causes};
    const size_t length = strlen(expected);
    for (size_t i = 0; i < sizeof lent / sizeof *lent; i++) {
        guard();
        const kiwimound_causes_answer a = kiwimound_causes((const uint8_t *)sheet, strlen(sheet), causes, lent[i]);
        if (a.number != 0 || a.line != 0 || a.length != length || a.cut)
            return false;
        if (memcmp(causes, expected, length) != 0 || !kept(causes, sizeof causes, length))
            return false;
    }
    return is_without_causes(sheet, KIWIMOUND_CAUSES_BYTES - 1, KIWIMOUND_SHORT_BUFFER, 0);
}

static void test_causes(void)
{
    /* Blower 2 is idle up to slot 2: idle in slot 3 as well, it would leave slots 1 to 3 room for 3 feedings, and 4 are
     * forced into them. */
    EXPECT(has_causes(FOUR_SLOTS,
                      "     2     2     1     3\n"
                      "     1     0     0     0\n"
                      "     2     0     0     0\n"
                      "     3     0     0     0\n"
                      "     2     3     2     1\n" /* busy to slot 3: ration 2 alone can be fed in slot 4 */
                      "     4     0     0     0\n"
                      "     1     0     1     1\n" /* blower 1 busy from slot 1: ration 1 needs it */
                      "     1     0     0     0\n"));
    EXPECT(has_causes("     1     2     1     2\n"
                      "     1     1     1     1\n"
                      "     2     1     1     1\n",
                      "     2     0     1     1\n"
                      "     1     0     0     0\n"
                      "     1     0     3     1\n" /* blower 2 is busy in slot 1, so blower 1 can't be idle there */
                      "     1     0     0     0\n"));
    EXPECT(has_causes("     3     2     0     4\n"
                      "     1     1     1     1\n"
                      "     2     1     1     1\n"
                      "     3     2     3     1\n"
                      "     4     2     2     1\n",
                      "     2     0     1     1\n"
                      "     1     0     0     0\n"
                      "     2     2     2     2\n" /* slot 3 alone lacks one feeding, slots 2 and 3 together two */
                      "     2     0     0     0\n"
                      "     3     0     0     0\n"
                      "     1     0     3     1\n"
                      "     1     0     0     0\n"
                      "     1     2     2     2\n"
                      "     2     0     0     0\n"
                      "     3     0     0     0\n"));
    EXPECT(has_causes("     3     1     4     0\n", "")); /* no stretch ends before the last slot */

    const size_t whole = KIWIMOUND_CAUSES_BYTES;
    EXPECT(is_without_causes(FOUR_SLOTS, 0, KIWIMOUND_SHORT_BUFFER, 0));
    EXPECT(is_without_causes(FOUR_SLOTS, KIWIMOUND_LISTING_BYTES, KIWIMOUND_SHORT_BUFFER, 0));
    EXPECT(is_without_causes(HELD, whole - 1, KIWIMOUND_SHORT_BUFFER, 0));
    EXPECT(is_without_causes(HELD, whole, KIWIMOUND_HELD, 0));
    EXPECT(is_without_causes(HELD, sizeof causes, KIWIMOUND_HELD, 0));
    for (size_t i = 0; i < FAULTY_SHEETS; i++) {
        EXPECT(is_without_causes(faulty_sheets[i].sheet, 0, faulty_sheets[i].number, faulty_sheets[i].line));
        EXPECT(is_without_causes(faulty_sheets[i].sheet, whole, faulty_sheets[i].number, faulty_sheets[i].line));
    }
}

/* A day of seven blowers whose causes have long sets. Seven rations of some volume have the whole day, and feed all of
 * slots 2 to volume + 1. Rations of one slot stand seven in a slot, `early` of them in slot 1 and in every second slot
 * from volume + 3 on as far as they go, and `late` in slot 96. Each of these makes two entries: of two lines, where the
 * blower's idle stretch ends, and where its busy stretch ends of 2 + volume lines, for all of slots 2 to volume + 1 and
 * the slot after the stretch; in slot 96 the first alone. Gives the sheet's length. */
static size_t write_long_day(uint8_t sheet[KIWIMOUND_SHEET_BYTES(KIWIMOUND_MAX_RATIONS)], uint32_t volume,
                             uint32_t early, uint32_t late)
{
    const uint32_t blowers = 7;
    uint32_t numbers[4 * KIWIMOUND_MAX_RATIONS], n = 0;
    for (; n < early + late; n++) {
        const uint32_t stop = n / blowers;
        const uint32_t slot = n >= early ? KIWIMOUND_MAX_SLOTS : stop == 0 ? 1 : volume + 1 + 2 * stop;
        memcpy(numbers + 4 * n, (uint32_t[]){n + 1, slot, slot, 1}, 4 * sizeof *numbers);
    }
    for (uint32_t k = 0; k < blowers; k++, n++)
        memcpy(numbers + 4 * n, (uint32_t[]){n + 1, 1, KIWIMOUND_MAX_SLOTS, volume}, 4 * sizeof *numbers);
    const kiwimound_written w =
        kiwimound_write(KIWIMOUND_MAX_SLOTS, blowers, 1, n, numbers, 4 * (size_t)n, sheet, KIWIMOUND_SHEET_BYTES(n));
    EXPECT(w.number == 0 && w.length == KIWIMOUND_SHEET_BYTES(n));
    return w.length;
}

/* However much is lent, 2,621 lines are listed at most, and no part of an entry. All entries of a day have
 * (volume + 4) * early + 2 * late lines. */
static void test_causes_cut(void)
{
    static const struct {
        uint32_t volume, early, late;
        size_t lines;
        bool cut;
    } days[] = {
        {63, 39, 4, 2621, false}, /* as many lines as there is room for */
        {63, 39, 5, 2621, true},  /* so many, and one entry more */
        {73, 34, 1, 2620, false},
        {73, 34, 2, 2620, true}, /* the last entry, of two lines, would be one too many */
        {73, 34, 3, 2547, true}, /* an entry of 75 lines does not fit, the one of two lines after it would */
    };
    static const char opening[] =
        "     7     0     1     1\n"
        "     1     0     0     0\n";
    static uint8_t sheet[KIWIMOUND_SHEET_BYTES(KIWIMOUND_MAX_RATIONS)];
    EXPECT(KIWIMOUND_CAUSES_BYTES / KIWIMOUND_LINE_BYTES == 2621);
    for (size_t i = 0; i < sizeof days / sizeof *days; i++)
        for (size_t lent = KIWIMOUND_CAUSES_BYTES; lent <= sizeof causes; lent += KIWIMOUND_CAUSES_BYTES) {
            const size_t length = write_long_day(sheet, days[i].volume, days[i].early, days[i].late);
            guard();
            const kiwimound_causes_answer a = kiwimound_causes(sheet, length, causes, lent);
            EXPECT(a.number == 0 && a.line == 0 && a.cut == days[i].cut);
            EXPECT(a.length == days[i].lines * KIWIMOUND_LINE_BYTES && kept(causes, sizeof causes, a.length));
            EXPECT(memcmp(causes, opening, sizeof opening - 1) == 0);
        }
}

/* The sizes and limits of request 110, and what stayed. */
static void test_sizes(void)
{
    EXPECT(KIWIMOUND_VERSION == 2 && kiwimound_version_2() == KIWIMOUND_VERSION);
    EXPECT(KIWIMOUND_FIELD_COLUMNS == 6 && KIWIMOUND_LINE_BYTES == 4 * KIWIMOUND_FIELD_COLUMNS + 1);
    EXPECT(KIWIMOUND_LISTING_BYTES == 38455 && KIWIMOUND_PRACTICE_BYTES == 1625 && KIWIMOUND_SHEET_BYTES(64) == 1625);
    EXPECT(KIWIMOUND_MAX_WAKE == 2000 && KIWIMOUND_MAX_TANK == 250000);
    EXPECT(KIWIMOUND_MAX_SHEET_BYTES == 65520 && KIWIMOUND_CAUSES_BYTES == 65536 && KIWIMOUND_PLACING_WORDS == 96);

    guard(); /* its bytes are neither blanks nor digits, so that a length that passes gives 2 */
    static const struct {
        size_t length;
        uint32_t number, line;
    } lengths[] = {
        {0, KIWIMOUND_BAD_LENGTH, 0},     {21, KIWIMOUND_BAD_LENGTH, 0},    {24, KIWIMOUND_BAD_LENGTH, 0},
        {25, KIWIMOUND_BAD_FIELD, 1},     {26, KIWIMOUND_BAD_LENGTH, 0},    {65500, KIWIMOUND_BAD_FIELD, 1},
        {65520, KIWIMOUND_BAD_LENGTH, 0}, {65525, KIWIMOUND_BAD_LENGTH, 0}, {131050, KIWIMOUND_BAD_LENGTH, 0},
    };
    for (size_t i = 0; i < sizeof lengths / sizeof *lengths; i++) {
        const kiwimound_reading r = kiwimound_read(causes, lengths[i].length);
        EXPECT(r.number == lengths[i].number && r.line == lengths[i].line);
    }
    const size_t few[] = {32303, 38430, 38454}; /* that of five columns, one without the bill, one byte too few */
    for (size_t i = 0; i < sizeof few / sizeof *few; i++) {
        const kiwimound_planned p = kiwimound_plan(LEND(FOUR_SLOTS), listing, few[i]);
        EXPECT(p.number == KIWIMOUND_SHORT_BUFFER && p.line == 0 && p.length == 0);
        EXPECT(kept(listing, sizeof listing, 0));
    }
    const kiwimound_planned p = kiwimound_plan(LEND(FOUR_SLOTS), listing, 38455);
    EXPECT(p.number == 0 && p.line == 0 && is_listing(p, FOUR_SLOTS_PLAN));
}

/* Tanks up to 250,000 and wake costs up to 2,000. */
static void test_site_tanks(void)
{
    static const uint32_t numbers[16] = {101004, 1, 2, 2, 101005, 6, 8, 2, 249912, 1, 3, 1, 250000, 7, 8, 2};
    static const kiwimound_ration rations[4] = {{101004, 1, 2, 2}, {101005, 6, 8, 2}, {249912, 1, 3, 1},
                                                {250000, 7, 8, 2}};
    static const uint64_t words[KIWIMOUND_PLACING_WORDS] = {1, 1, 4, 0, 0, 2, 8, 2 | 8};
    const size_t length = sizeof SITE_TANKS - 1;
    const kiwimound_reading r = kiwimound_read(LEND(SITE_TANKS));
    EXPECT(r.number == 0 && r.line == 0 && r.slots == 8 && r.blowers == 2 && r.wake == 1500 && r.rations == 4);
    EXPECT(memcmp(r.numbers, numbers, sizeof numbers) == 0);
    guard();
    kiwimound_written w = kiwimound_write(8, 2, 1500, 4, numbers, 16, listing, length);
    EXPECT(w.number == 0 && w.length == length && memcmp(listing, SITE_TANKS, length) == 0);
    EXPECT(kept(listing, sizeof listing, length));
    guard();
    w = kiwimound_write_rations(8, 2, 1500, rations, 4, listing, length);
    EXPECT(w.number == 0 && w.length == length && memcmp(listing, SITE_TANKS, length) == 0);
    kiwimound_part part = kiwimound_find(LEND(SITE_TANKS), 250000);
    EXPECT(part.start == 4 * KIWIMOUND_LINE_BYTES && part.length == KIWIMOUND_LINE_BYTES);
    part = kiwimound_find(LEND(SITE_TANKS), 101006);
    EXPECT(part.start == 0 && part.length == 0);
    guard();
    kiwimound_planned p = kiwimound_plan_both(LEND(SITE_TANKS), listing, sizeof listing, placing, LENT_WORDS);
    EXPECT(p.number == 0 && p.line == 0 && is_listing(p, SITE_TANKS_PLAN) && is_placing(words));
    guard();
    p = kiwimound_plan_rations(8, 2, 1500, rations, 4, listing, sizeof listing);
    EXPECT(p.number == 0 && p.line == 0 && is_listing(p, SITE_TANKS_PLAN));
    EXPECT(has_causes(SITE_TANKS,
                      "     2     7     1     2\n" /* slots 7 and 8 have three feedings, one blower makes two */
                      "     7     0     0     0\n"
                      "     8     0     0     0\n"
                      "     1     0     1     1\n" /* tank 101004 needs slot 1 */
                      "     1     0     0     0\n"
                      "     1     3     2     1\n" /* no tank has slot 4 */
                      "     4     0     0     0\n"
                      "     1     5     1     2\n" /* without slot 6, slot 7 would have both tanks */
                      "     6     0     0     0\n"
                      "     7     0     0     0\n"));

    /* The greatest tank, and those after it; a field takes 999,999. */
    static const char tank_250000[] = "     1     1  2000     1\n250000     1     1     1\n";
    EXPECT(is_planned(tank_250000,
                      "PLAN\n"
                      "  2001     1     1     1\n"
                      "     1     1     1     2\n"
                      "     1     1250000     1\n"
                      "    36     2     0     0\n"));
    static const char *const tanks[] = {"     1     1  2000     1\n250001     1     1     1\n",
                                        "     1     1  2000     1\n999999     1     1     1\n"};
    for (size_t i = 0; i < sizeof tanks / sizeof *tanks; i++)
        EXPECT(is_refused(tanks[i], KIWIMOUND_BAD_TANK, 2));
    EXPECT(is_refused("     1     1  2001     0\n", KIWIMOUND_BAD_WAKE, 1));
    EXPECT(is_refused("     1     1999999     0\n", KIWIMOUND_BAD_WAKE, 1));
    /* Without a sheet's columns, numbers go up to 32 bits. */
    static const uint32_t beyond[] = {250001, 999999, 1000000, UINT32_MAX};
    guard();
    for (size_t i = 0; i < sizeof beyond / sizeof *beyond; i++) {
        const uint32_t bad[4] = {beyond[i], 1, 1, 1};
        w = kiwimound_write(1, 1, 2000, 1, bad, 4, listing, sizeof listing);
        EXPECT(w.number == KIWIMOUND_BAD_TANK && w.line == 2 && w.length == 0);
        p = kiwimound_plan_rations(1, 1, 2000, &(const kiwimound_ration){beyond[i], 1, 1, 1}, 1, listing,
                                   sizeof listing);
        EXPECT(p.number == KIWIMOUND_BAD_TANK && p.line == 2 && p.length == 0);
        w = kiwimound_write(1, 1, beyond[i], 0, bad, 0, listing, sizeof listing);
        EXPECT(w.number == KIWIMOUND_BAD_WAKE && w.line == 1 && w.length == 0);
    }
    EXPECT(kept(listing, sizeof listing, 0));

    /* Plans are ordered by the tanks' numbers and not by their digits. */
    static const char tank_9[] = "     1     1  2000     1\n     9     1     1     1\n";
    static const char tank_99999[] = "     1     1  2000     1\n 99999     1     1     1\n";
    EXPECT(is_compared(tank_9, tank_99999, 0, 0, KIWIMOUND_ORDER_BEFORE));
    EXPECT(is_compared(tank_99999, tank_250000, 0, 0, KIWIMOUND_ORDER_BEFORE));
    EXPECT(is_compared(tank_250000, tank_9, 0, 0, KIWIMOUND_ORDER_AFTER));
}

/* A sheet of version 1, with lines of 21 bytes, is refused by its length; where 25 divides that, by its first line,
 * whose byte 10 is in a field. */
static void test_five_columns(void)
{
    static char sheet[21 * (KIWIMOUND_MAX_RATIONS + 1) + 1];
    unsigned by_field = 0;
    for (unsigned lines = 1; lines <= KIWIMOUND_MAX_RATIONS + 1; lines++) {
        for (unsigned i = 0; i < lines; i++)
            sprintf(sheet + 21 * i, "%5u%5u%5u%5u\n", i == 0 ? 96 : i, i == 0 ? 8 : 1, i == 0 ? 5 : 96,
                    i == 0 ? lines - 1 : 1);
        const bool is_divided = 21 * lines % 25 == 0;
        EXPECT(is_refused(sheet, is_divided ? KIWIMOUND_BAD_FIELD : KIWIMOUND_BAD_LENGTH, is_divided));
        by_field += is_divided;
    }
    EXPECT(by_field == 2); /* 25 lines and 50 */
}

/* The calls on records: document 01's first sheet, the held one, one whose second window is faulty, and two with
 * several meals for a tank. */
static void test_records(void)
{
    static const kiwimound_ration four_slots[] = {{1, 1, 2, 2}, {2, 1, 4, 2}, {3, 2, 3, 1}};
    static const kiwimound_ration held[] = {{1, 1, 2, 2}, {2, 2, 3, 2}};
    static const kiwimound_ration faulty[] = {{1, 1, 2, 2}, {2, 3, 2, 1}};
    static const kiwimound_ration two_meals[] = {{1, 1, 3, 2}, {1, 8, 10, 2}, {2, 1, 4, 3}};
    static const kiwimound_ration bad_meal[] = {{5, 1, 2, 1}, {5, 2, 4, 1}};
    static const kiwimound_ration many[65];
    guard();
    kiwimound_planned p = kiwimound_plan_rations(4, 2, 2, four_slots, 3, listing, sizeof listing);
    EXPECT(p.number == 0 && p.line == 0 && is_listing(p, FOUR_SLOTS_PLAN));
    guard();
    p = kiwimound_plan_rations_both(4, 2, 2, four_slots, 3, listing, sizeof listing, placing, LENT_WORDS);
    EXPECT(p.number == 0 && p.line == 0 && is_listing(p, FOUR_SLOTS_PLAN) && is_four_slots_placing());
    guard();
    p = kiwimound_plan_rations(3, 1, 1, held, 2, listing, sizeof listing);
    EXPECT(p.number == KIWIMOUND_HELD && p.line == 0 && is_listing(p, HELD_LISTING));
    guard();
    p = kiwimound_plan_rations_both(3, 1, 1, held, 2, listing, sizeof listing, placing, KIWIMOUND_PLACING_WORDS);
    EXPECT(p.number == KIWIMOUND_HELD && p.line == 0 && is_listing(p, HELD_LISTING) && is_empty_placing());
    guard();
    p = kiwimound_plan_rations(10, 2, 3, two_meals, 3, listing, sizeof listing);
    EXPECT(p.number == 0 && p.line == 0 && is_listing(p, TWO_MEALS_PLAN));
    guard();
    p = kiwimound_plan_rations(3, 1, 1, faulty, 2, listing, sizeof listing);
    EXPECT(p.number == KIWIMOUND_BAD_WINDOW && p.line == 3 && p.length == 0);
    p = kiwimound_plan_rations(4, 1, 1, bad_meal, 2, listing, sizeof listing);
    EXPECT(p.number == KIWIMOUND_BAD_MEAL && p.line == 3 && p.length == 0);
    p = kiwimound_plan_rations(3, 1, 1, many, 65, listing, sizeof listing);
    EXPECT(p.number == KIWIMOUND_BAD_RATIONS && p.line == 1 && p.length == 0);
    p = kiwimound_plan_rations(4, 2, 2, four_slots, 3, listing, KIWIMOUND_LISTING_BYTES - 1);
    EXPECT(p.number == KIWIMOUND_SHORT_BUFFER && p.line == 0 && p.length == 0);
    const size_t few = KIWIMOUND_PLACING_WORDS - 1;
    p = kiwimound_plan_rations_both(4, 2, 2, four_slots, 3, listing, sizeof listing, placing, few);
    EXPECT(p.number == KIWIMOUND_SHORT_BUFFER && p.line == 0 && p.length == 0 && kept(placing, sizeof placing, 0));
    kiwimound_written w = kiwimound_write_rations(4, 2, 2, four_slots, 3, listing, KIWIMOUND_SHEET_BYTES(3) - 1);
    EXPECT(w.number == KIWIMOUND_SHORT_BUFFER && w.line == 0 && w.length == 0 && kept(listing, sizeof listing, 0));
    w = kiwimound_write_rations(4, 2, 2, four_slots, 3, listing, sizeof listing);
    EXPECT(w.number == 0 && w.line == 0 && w.length == sizeof FOUR_SLOTS - 1 && memcmp(listing, FOUR_SLOTS, w.length) == 0);
    EXPECT(kept(listing, sizeof listing, w.length));
    static const uint8_t all[] = {1, 1, 1};
    kiwimound_shortfall_answer s = kiwimound_shortfall_rations(3, 1, 1, held, 2, all, 3);
    EXPECT(s.number == 0 && s.line == 0 && s.shortfall == 1);
    static const kiwimound_ration late[] = {{1, 1, 3, 1}};
    static const uint32_t lows[] = {1, 1, 0}, none[] = {0, 0, 0}, highs[] = {1, 1, 1};
    kiwimound_bounds_answer b = kiwimound_bounds_rations(3, 1, 1, late, 1, lows, 3, highs, 3);
    EXPECT(b.number == 0 && b.line == 0 && !b.yes);
    b = kiwimound_bounds_rations(3, 1, 1, late, 1, none, 3, highs, 3);
    EXPECT(b.number == 0 && b.line == 0 && b.yes);
}

int main(void)
{
    test_read();
    test_write();
    test_find();
    test_meals();
    test_shortfall();
    test_bounds();
    test_planned();
    test_every_ration();
    test_bill();
    test_held();
    test_refused();
    test_practice();
    test_halls();
    test_halls_alone();
    test_halls_refused();
    test_halls_of_practice();
    test_share();
    test_share_refused();
    test_share_every_ration();
    test_share_of_practice();
    test_compare();
    test_compare_refused();
    test_compare_every_ration();
    test_causes();
    test_causes_cut();
    test_sizes();
    test_site_tanks();
    test_five_columns();
    test_records();
    printf(failures == 0 ? "tests.c: ok\n" : "tests.c: FAILED\n");
    return failures != 0;
}
