/* Kiwimound: plans the feed day of a trout farm. The calls of the static libraries libkiwimound.a and librecords.a.
 *
 * Build the library with bindings/library; it is then target/staticlib/libkiwimound.a, for x86-64 Linux. Of other
 * libraries it needs memcpy and memset alone. It keeps no state between calls, takes no memory from the heap,
 * and reads and writes nothing but what a call lends it. So any number of threads may call it at once, as long as no
 * two of them lend the same memory for writing.
 *
 * Every call: a pointer and the length after it lend so many elements of the pointer's type, so that the length counts
 * words and not bytes where the type is uint64_t. The pointer must be aligned for its type and valid for that many,
 * also where the length is 0 (then any pointer that is not null and is aligned will do), and memory lent for writing
 * must not overlap anything else lent to the same call. Beyond that nothing is asked: whatever the memory holds, the
 * call returns and answers a number.
 *
 * Numbers: 0 is accepted. Any other is the refusal below, the first that applies in the order of the list, in which
 * 7, 8, 9 and 13 go line by line; `line` is the line of the sheet that it names, from 1; 0 where it names none.
 * Every number but 0 and 12 changes nothing that is lent, of a hall's own number nothing that the hall lends, and every
 * further field of the answer is then 0. */
#ifndef KIWIMOUND_H
#define KIWIMOUND_H

#include <stdbool.h>
#include <stddef.h>
#include <stdint.h>

#ifdef __cplusplus
extern "C" {
#endif

/* Version ---------------------------------------------------------------------------------------------------------- */

/* The version of the form of sheets and listings, of the sizes and limits below, and of the calls and their answers. It
 * goes up where a program that calls the library has to be compiled again or changed. Version 1 had fields of five
 * columns and lines of 21 bytes, and its header named no version. */
#define KIWIMOUND_VERSION 2u

/* Answers KIWIMOUND_VERSION. libkiwimound.a has this name in version 2 alone, and with gcc and clang every object that
 * includes this header refers to it: the object links with no libkiwimound.a of another version. librecords.a has no
 * such name, and is to be built from the same sources. */
uint32_t kiwimound_version_2(void);

#if defined(__GNUC__)
#if defined(__has_attribute)
#if __has_attribute(retain)
#define KIWIMOUND_KEEP __attribute__((used, retain)) /* a linker that leaves out what nothing uses keeps it too */
#endif
#endif
#ifndef KIWIMOUND_KEEP
#define KIWIMOUND_KEEP __attribute__((used))
#endif
static uint32_t (*const kiwimound_linked_version)(void) KIWIMOUND_KEEP = kiwimound_version_2;
#undef KIWIMOUND_KEEP
#endif

/* Sizes and limits ------------------------------------------------------------------------------------------------- */

#define KIWIMOUND_FIELD_COLUMNS 6u       /* a field: a number without leading zeros, right-justified after blanks */
#define KIWIMOUND_LINE_BYTES 25u         /* a line of a sheet or of a listing: four fields, then byte 10 */
#define KIWIMOUND_MAX_SHEET_BYTES 65520u /* a longer sheet is refused by its length */
#define KIWIMOUND_LISTING_BYTES 38455u   /* the least length of a plan buffer */
#define KIWIMOUND_PLACING_WORDS 96u      /* the least length of a placing buffer, in words of 64 bits */
#define KIWIMOUND_CAUSES_BYTES 65536u    /* the least length of a buffer for causes; no listing of causes is longer */
#define KIWIMOUND_PRACTICE_BYTES 1625u   /* the longest practice sheet: a buffer that is long enough for every seed */
#define KIWIMOUND_MAX_SLOTS 96u
#define KIWIMOUND_MAX_BLOWERS 8u
#define KIWIMOUND_MAX_WAKE 2000u
#define KIWIMOUND_MAX_RATIONS 64u
#define KIWIMOUND_MAX_TANK 250000u
#define KIWIMOUND_MAX_HALLS 4u  /* the most halls that are planned behind one limit */
#define KIWIMOUND_MAX_LIMIT 32u /* the greatest limit on the busy blowers of all halls in a slot */

/* The least length of a buffer that a sheet of n rations is written to. */
#define KIWIMOUND_SHEET_BYTES(n) (KIWIMOUND_LINE_BYTES * ((size_t)(n) + 1u))

/* Numbers ---------------------------------------------------------------------------------------------------------- */

enum {
    KIWIMOUND_ACCEPTED = 0,
    KIWIMOUND_BAD_HALLS = 14,    /* a limit outside 1 to 32 or halls outside 1 to 4; line 0 */
    KIWIMOUND_BAD_LENGTH = 1,    /* the sheet is under 25 bytes, above 65,520, or not a multiple of 25 long; line 0 */
    KIWIMOUND_BAD_FIELD = 2,     /* a field is not in its form, or a closing byte 10 is missing; the first such line */
    KIWIMOUND_BAD_SLOTS = 3,     /* slots outside 1 to 96; line 1 */
    KIWIMOUND_BAD_BLOWERS = 4,   /* blowers outside 1 to 8; line 1 */
    KIWIMOUND_BAD_WAKE = 5,      /* wake cost above 2,000; line 1 */
    KIWIMOUND_BAD_RATIONS = 6,   /* rations above 64, or not the number of ration lines; line 1 */
    KIWIMOUND_BAD_TANK = 7,      /* a tank outside 1 to 250,000, or below the tank before it; its line */
    KIWIMOUND_BAD_WINDOW = 8,    /* a window that breaks 1 <= first <= last <= slots; its line */
    KIWIMOUND_BAD_VOLUME = 9,    /* a volume of 0 or above its window's length; its line */
    KIWIMOUND_BAD_MEAL = 13,     /* a meal begins at or before the end of the same tank's preceding window; its line */
    KIWIMOUND_SHORT_BUFFER = 10, /* a lent buffer is too short; line 0 */
    KIWIMOUND_BAD_LIST = 11,     /* a list of bounds or marks is not one for each slot, or a mark not 0 or 1; line 0 */
    KIWIMOUND_HELD = 12          /* the blowers do not suffice: no sound placing exists; line 0 */
};

/* Causes of a stretch's end: what stands in the way of a plan that keeps all stretches settled before and has this one
 * a slot longer. It is 3 where that applies, otherwise 1, otherwise 2. An idle stretch has 1 or 3, a busy one 2 or 3.
 */
enum {
    /* more feedings are forced into the slots than the blowers may make there: the slots contained in every set of
     * greatest shortfall */
    KIWIMOUND_CAUSE_SHORTFALL = 1,
    /* fewer feedings are possible in the slots than the blowers would have to make: the slots contained in every set of
     * greatest excess */
    KIWIMOUND_CAUSE_EXCESS = 2,
    /* a slot's low is above its high, so that it would have to hold more feedings than it may: the lowest such slot */
    KIWIMOUND_CAUSE_LOW_ABOVE_HIGH = 3
};

/* Orders of two plans, said of the first sheet that a comparison is lent: its plan is the same as the second's, or
 * comes before or after it. The rule is at kiwimound_compare. */
enum {
    KIWIMOUND_ORDER_NO = 0, /* a sheet is refused by any number, 12 included, so that there are no two plans */
    KIWIMOUND_ORDER_SAME = 1,
    KIWIMOUND_ORDER_BEFORE = 2,
    KIWIMOUND_ORDER_AFTER = 3
};

/* Answers ---------------------------------------------------------------------------------------------------------- */

/* What a sheet says. On a refusal every field after `line` is 0. */
typedef struct kiwimound_reading {
    uint32_t number;
    uint32_t line;
    uint32_t slots;
    uint32_t blowers;
    uint32_t wake;
    uint32_t rations;
    uint32_t numbers[4 * 64]; /* for each ration, in sheet order: tank, first slot, last slot, volume; 0 after the last ration. A tank may have several
                               * rations, one after another: its meals */
} kiwimound_reading;

/* Of writing a sheet, a practice sheet too: the length of the sheet written, 0 on a refusal. */
typedef struct kiwimound_written {
    uint32_t number;
    uint32_t line;
    size_t length;
} kiwimound_written;

/* A part of the sheet that was lent: `length` bytes from sheet + start on. */
typedef struct kiwimound_part {
    size_t start;
    size_t length;
} kiwimound_part;

/* Of planning: the length of the listing written, 0 where none is. */
typedef struct kiwimound_planned {
    uint32_t number;
    uint32_t line;
    size_t length;
} kiwimound_planned;

/* Of planning a share: the length of the listing written, and the share of the volumes that is fed, 1 to 100 in a
 * hundred; both are 0 on a refusal. */
typedef struct kiwimound_share_answer {
    uint32_t number;
    uint32_t line;
    size_t length;
    uint32_t share;
} kiwimound_share_answer;

/* Of planning halls: 0 and 0, or 14 and 0 for the whole call; and what planning hall h came to, in hall[h - 1]. Every
 * field of `hall` is 0 on 14, and for a hall that is not there. */
typedef struct kiwimound_halls {
    uint32_t number;
    uint32_t line;
    kiwimound_planned hall[KIWIMOUND_MAX_HALLS];
} kiwimound_halls;

/* Of a comparison: the order of the two plans, KIWIMOUND_ORDER_SAME, KIWIMOUND_ORDER_BEFORE or KIWIMOUND_ORDER_AFTER;
 * KIWIMOUND_ORDER_NO on a refusal, on 12 too. */
typedef struct kiwimound_compared {
    uint32_t number;
    uint32_t line;
    uint32_t order;
} kiwimound_compared;

/* Of a set of slots: the feedings forced into it less its capacity, from -768 to 6,144; 0 on a refusal. */
typedef struct kiwimound_shortfall_answer {
    uint32_t number;
    uint32_t line;
    int32_t shortfall;
} kiwimound_shortfall_answer;

/* Of a question under bounds: whether a sound placing exists; false on a refusal. */
typedef struct kiwimound_bounds_answer {
    uint32_t number;
    uint32_t line;
    bool yes;
} kiwimound_bounds_answer;

/* Of listing causes: the length of the listing written, and whether it was cut; 0 and false on a refusal. */
typedef struct kiwimound_causes_answer {
    uint32_t number;
    uint32_t line;
    size_t length;
    bool cut;
} kiwimound_causes_answer;

/* Sheets ----------------------------------------------------------------------------------------------------------- */

/* Reads a sheet: its numbers, or the first refusal of 1 to 9 and 13. Changes nothing. */
kiwimound_reading kiwimound_read(const uint8_t *sheet, size_t sheet_length);

/* Writes a sheet. `rations` is the fourth number of the head line; `numbers` lends four numbers for each ration:
 * tank, first slot, last slot, volume. Refusals 3 to 9 and 13, in which a list that is not 4 * rations long is 6 and
 * `line` is the line that the ration would have had, then 10 for `out` shorter than KIWIMOUND_SHEET_BYTES(rations).
 * Number 0 writes the sheet at the front of `out`; bytes after it keep their values. */
kiwimound_written kiwimound_write(uint32_t slots, uint32_t blowers, uint32_t wake, uint32_t rations, const uint32_t *numbers, size_t numbers_length,
                                  uint8_t *out, size_t out_length);

/* Writes the practice sheet of a seed, which is any number of 32 bits: a sheet to load a cabinet with before there are
 * fish. The one refusal is 10, for `out` shorter than KIWIMOUND_SHEET_BYTES of the rations that this seed draws;
 * KIWIMOUND_PRACTICE_BYTES are enough for every seed. Number 0 writes the sheet at the front of `out`; bytes after it
 * keep their values. Every practice sheet passes the checks 1 to 9 and 13; some are held, and planning shows why.
 *
 * With s, a uint32_t that is the seed at first, a draw is (s = 1664525u * s + 1013904223u) / 65536u. There are 96 slots.
 * One draw after another gives: blowers, 1 + draw % 8; wake, draw % 201; rations, draw % 65; then for each tank from 1 on
 * its first slot, 1 + draw % 96, its last slot, first + draw % (97 - first), and its volume,
 * 1 + draw % (last - first + 1). */
kiwimound_written kiwimound_practice(uint32_t seed, uint8_t *out, size_t out_length);

/* Where the lines of a tank are in the sheet, all of them as one part, closing bytes 10 included: the length is
 * KIWIMOUND_LINE_BYTES for each. The part is empty, start and length 0, where the sheet is refused by 1 to 9 or 13
 * or has no such tank. A sheet that planning holds is looked up all the same. Changes nothing. */
kiwimound_part kiwimound_find(const uint8_t *sheet, size_t sheet_length, uint32_t tank);

/* Placing ---------------------------------------------------------------------------------------------------------- */

/* The shortfall of the slots that are marked 1: `marks` lends a 0 or a 1 for each slot. Refusals 1 to 9 and 13, then
 * 11. Changes nothing. */
kiwimound_shortfall_answer kiwimound_shortfall(const uint8_t *sheet, size_t sheet_length, const uint8_t *marks, size_t marks_length);

/* Whether a sound placing exists under a low and a high for each slot; a high above the blowers is read as the
 * blowers, a low is taken as it is. A sheet that fits nowhere answers no with number 0. Refusals 1 to 9 and 13, then
 * 11. Changes nothing. */
kiwimound_bounds_answer kiwimound_bounds(const uint8_t *sheet, size_t sheet_length, const uint32_t *lows, size_t lows_length, const uint32_t *highs,
                                         size_t highs_length);

/* Planning --------------------------------------------------------------------------------------------------------- */

/* Plans a sheet into `listing`. Refusals 1 to 9 and 13, then 10 for a buffer under KIWIMOUND_LISTING_BYTES, then 12.
 * Number 0 writes the listing of the plan at its front, 12 that of the held sheet; `length` is its length, and bytes
 * after it keep their values.
 *
 * The listing of a plan is `PLAN` and byte 10, then lines of KIWIMOUND_LINE_BYTES: energy, starts, stretch lines,
 * feed lines; so many stretch lines, with blower, first slot, last slot, state (0 off, 1 idle and on, 2 busy); so
 * many feed lines, with slot, blower, tank, part; and last the day's power bill: whole hundreds of cents, remaining
 * cents, 0, 0. That of a held sheet has no bill: `HELD` and byte 10, a line of 12, the number of slots shown, the
 * feedings forced into them, the capacity there; then a line of slot, 0, 0, 0 for each.
 *
 * Read a line by its columns and not by its blanks: a tank of six digits has none between it and the blower. */
kiwimound_planned kiwimound_plan(const uint8_t *sheet, size_t sheet_length, uint8_t *listing, size_t listing_length);

/* Plans a sheet into `placing`. Refusals 1 to 9 and 13, then 10 for a buffer under KIWIMOUND_PLACING_WORDS, then 12.
 * Number 0 writes 96 words at its front: word t - 1 is that of slot t, and its bit i - 1, the lowest being bit 0, is 1
 * if ration i is fed in slot t; every other bit is 0, and so are the words past the day. 12 writes 96 zeros. Words after
 * these keep their values; `length` is 0.
 *
 * So `placing[t - 1] >> (i - 1) & 1` says whether ration i is fed in slot t. Ration i is the one on the sheet's ration
 * line i, with the tank `numbers[4 * (i - 1)]` of kiwimound_read: a tank's meals have a bit each, and no slot has two of
 * them. `placing_words` counts words: KIWIMOUND_PLACING_WORDS, and not the size of the buffer in bytes. */
kiwimound_planned kiwimound_plan_placing(const uint8_t *sheet, size_t sheet_length, uint64_t *placing,
                                         size_t placing_words);

/* Plans a sheet into both buffers, each as the calls above. If either is too short, number 10 and neither is
 * changed. `length` is the listing's. */
kiwimound_planned kiwimound_plan_both(const uint8_t *sheet, size_t sheet_length, uint8_t *listing,
                                      size_t listing_length, uint64_t *placing, size_t placing_words);

/* Plans a sheet with its rations equally cut, so that one that would be held has a plan too. At a share of s, from 0 to
 * 100, of each ration the whole part of volume * s / 100 is left; the share taken is the greatest that has a plan.
 * Refusals 1 to 9 and 13, then 10 if either buffer is too short, and neither is changed; 12 is never given. Number 0
 * writes the plan of the cut sheet into both buffers as kiwimound_plan_both does. The share stands in the answer alone
 * and not in the listing, and parts count what is fed. A ration of which 0 is left is fed in no slot; those after it
 * keep their bits.
 *
 * A sheet that has a plan as it is has share 100, and kiwimound_plan_both writes the same. No volume is above 96, so
 * that share 1 cuts all to 0: on number 0 the share is 1 to 100, and 0 says that the sheet was refused. */
kiwimound_share_answer kiwimound_plan_share(const uint8_t *sheet, size_t sheet_length, uint8_t *listing,
                                            size_t listing_length, uint64_t *placing, size_t placing_words);

/* Plans up to four halls on one fuse, so that in every slot at most `limit` blowers are busy, those of all halls
 * counted together. `halls` says how many halls there are, and each lends a sheet and both buffers as for
 * kiwimound_plan_both.
 *
 * The limit and the number of halls are looked at before any sheet; 14 refuses the whole call, and then no hall has a
 * byte or word changed. Otherwise hall 1 is planned, then hall 2 and so on, each as kiwimound_plan_both plans a sheet
 * but with fewer blowers in some slots: no more than the halls before it leave of the limit there. Each hall has its
 * own number, line and length, in hall[h - 1]: refusals 1 to 9 and 13, then 10 for either of its two buffers, then 12.
 * What a held hall's listing gives as capacity is the sum over the slots shown of the blowers that it could have had.
 *
 * A refused hall, by 10 or 12 too, takes nothing of the limit, nor does any hall in slots after its day; later halls
 * are planned all the same. What a hall lends has no bearing on the halls before it.
 *
 * Of a hall past `halls` nothing is read and nothing changed. It lends lengths of 0, with pointers that are not null
 * and are aligned; those of another hall's memory will do. */
kiwimound_halls kiwimound_plan_halls(uint32_t limit, uint32_t halls,
                                     const uint8_t *sheet_1, size_t sheet_1_length,
                                     uint8_t *listing_1, size_t listing_1_length,
                                     uint64_t *placing_1, size_t placing_1_words,
                                     const uint8_t *sheet_2, size_t sheet_2_length,
                                     uint8_t *listing_2, size_t listing_2_length,
                                     uint64_t *placing_2, size_t placing_2_words,
                                     const uint8_t *sheet_3, size_t sheet_3_length,
                                     uint8_t *listing_3, size_t listing_3_length,
                                     uint64_t *placing_3, size_t placing_3_words,
                                     const uint8_t *sheet_4, size_t sheet_4_length,
                                     uint8_t *listing_4, size_t listing_4_length,
                                     uint64_t *placing_4, size_t placing_4_words);

/* Plans a sheet for its number alone: refusals 1 to 9 and 13, then 12, `length` 0. Changes nothing. */
kiwimound_planned kiwimound_plan_number(const uint8_t *sheet, size_t sheet_length);

/* Plans two sheets and says whether the first one's plan is the same as the second's, or comes before or after it.
 * Refusals 1 to 9 and 13, then 12, all of the first sheet's before the second's; the answer does not say which sheet
 * was at fault. Changes nothing.
 *
 * The plan with fewer slots comes first. Of two with as many, the first slot in which the lists of fed tanks differ
 * decides. A slot's list is the tanks of its feed lines, in their order, which is that of the sheet. Of two lists the
 * one with the smaller tank at the first place that differs comes first; where there is no such place, the one that
 * ends first. So a slot without a feeding comes before one with any.
 *
 * Two plans are the same exactly if they have as many slots and the same list in each. Nothing else is compared: sheets
 * with other windows, meals, blowers or wake costs can have the same plan. This is a total order: of any two plans
 * exactly one of the three holds; with the sheets exchanged, before becomes after; and a plan before one that is before
 * a third is before that one. So sheets that have plans can be sorted. */
kiwimound_compared kiwimound_compare(const uint8_t *first, size_t first_length,
                                     const uint8_t *second, size_t second_length);

/* Lists why each stretch of a sheet's plan ends where it does. Refusals 1 to 9 and 13, then 10 for `out` under
 * KIWIMOUND_CAUSES_BYTES, then 12; on 12, as on every other refusal, no byte is changed. Number 0 writes the listing at
 * the front of `out`; bytes after it keep their values.
 *
 * The listing is lines of KIWIMOUND_LINE_BYTES alone, without a word or a head line before them. Stretches are settled
 * by blower from the last down to 1, then by slot. In this order each that ends before the day's last slot has an
 * entry: a line of blower, last slot, cause, number of slots; then a line of slot, 0, 0, 0 for each slot, rising. A
 * blower busy from slot 1 has the entry of an idle stretch that ends at slot 0. If all entries would be longer than
 * KIWIMOUND_CAUSES_BYTES, the listing ends before the first that goes beyond these, even if more is lent, and `cut` is
 * true. */
kiwimound_causes_answer kiwimound_causes(const uint8_t *sheet, size_t sheet_length, uint8_t *out, size_t out_length);

/* Rations as records ----------------------------------------------------------------------------------------------- */

/* These calls are in a library of their own, librecords.a (bindings/library records), which is linked beside
 * libkiwimound.a of the same version. Each answers what the call above answers to the sheet of these head numbers and
 * rations, in their order: refusals 3 to 9 and 13, where `line` is the line that the ration would have had and more
 * than 64 rations are 6, then those of the call itself. */

typedef struct kiwimound_ration {
    uint32_t tank;
    uint32_t first; /* the first slot of its window */
    uint32_t last;  /* the last slot of its window */
    uint32_t volume;
} kiwimound_ration;

/* As kiwimound_write. */
kiwimound_written kiwimound_write_rations(uint32_t slots, uint32_t blowers, uint32_t wake, const kiwimound_ration *rations, size_t rations_length,
                                          uint8_t *out, size_t out_length);

/* As kiwimound_plan. */
kiwimound_planned kiwimound_plan_rations(uint32_t slots, uint32_t blowers, uint32_t wake, const kiwimound_ration *rations, size_t rations_length,
                                         uint8_t *listing, size_t listing_length);

/* As kiwimound_plan_both. */
kiwimound_planned kiwimound_plan_rations_both(uint32_t slots, uint32_t blowers, uint32_t wake,
                                              const kiwimound_ration *rations, size_t rations_length, uint8_t *listing,
                                              size_t listing_length, uint64_t *placing, size_t placing_words);

/* As kiwimound_shortfall. */
kiwimound_shortfall_answer kiwimound_shortfall_rations(uint32_t slots, uint32_t blowers, uint32_t wake, const kiwimound_ration *rations,
                                                       size_t rations_length, const uint8_t *marks, size_t marks_length);

/* As kiwimound_bounds. */
kiwimound_bounds_answer kiwimound_bounds_rations(uint32_t slots, uint32_t blowers, uint32_t wake, const kiwimound_ration *rations, size_t rations_length,
                                                 const uint32_t *lows, size_t lows_length, const uint32_t *highs, size_t highs_length);

#ifdef __cplusplus
}
#endif

#endif
