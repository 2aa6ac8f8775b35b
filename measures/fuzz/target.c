/* What libFuzzer runs. An input is four bytes that choose the sizes lent, and a sheet. Compiled with -DREADING for
 * the reading calls, which get bytes changed at random, and for practice sheets, of which the four bytes are the seed;
 * else for the planning calls, which get mostly sheets changed by their fields. */
#include "checks.h"
#include "mutate.h"

#include <string.h>

enum { LINE = KIWIMOUND_LINE_BYTES };

/* The library has no counters for libFuzzer to follow, so what its answers come to is counted instead: a new kind of
 * answer keeps the input. */
__attribute__((used, section("__libfuzzer_extra_counters"))) static uint8_t reached[4096];

static void reach(uint32_t place) { reached[place % sizeof reached] = 1; }

static uint32_t choice_of(const uint8_t *data) { return data[0] | (uint32_t)data[1] << 8 | (uint32_t)data[2] << 16 | (uint32_t)data[3] << 24; }

int LLVMFuzzerTestOneInput(const uint8_t *data, size_t size) {
    if (size < 4 || size > 66000) return -1;
    uint32_t choice = choice_of(data);
    const uint8_t *sheet = data + 4;
    size -= 4;
#ifdef READING
    kiwimound_reading r = kiwimound_read(sheet, size);
    check_reading(sheet, size, choice);
    reach(14 * (r.line < 100 ? r.line : 100) + r.number);
    reach(2000 + r.slots);
    reach(2200 + r.rations);
    uint32_t meals = 0; /* beyond the first of their tank */
    for (uint32_t i = 1; i < r.rations; i++) meals += r.numbers[4 * i] == r.numbers[4 * i - 4];
    reach(2300 + meals);
    reach(2400 + check_practice(choice));
#else
    struct outcome o = check_planning(sheet, size, choice);
    reach(o.number);
    reach(20 + o.stretches / 4);
    reach(300 + o.feeds / 8);
    reach(500 + o.shown);
    reach(700 + o.energy / 16);
    reach(2000 + o.cents / 48);
    reach(3300 + o.causes / 8);
    reach(3700 + check_halls(sheet, size, choice)); /* below 256 */
    reach(3960 + check_share(sheet, size, choice)); /* to 100 */
#endif
    return 0;
}

/* A sheet near the longest that is read: its lines again and again. */
static size_t lengthen(uint8_t *sheet, size_t size, size_t most, unsigned int seed) {
    size_t longest = KIWIMOUND_MAX_SHEET_BYTES - LINE + seed / 64 % 64;
    if (size < LINE || longest > most) return size;
    for (size_t i = size; i < longest; i++) sheet[i] = sheet[i - size + size % LINE];
    return longest;
}

size_t LLVMFuzzerMutate(uint8_t *data, size_t size, size_t most);

size_t LLVMFuzzerCustomMutator(uint8_t *data, size_t size, size_t most, unsigned int seed) {
#ifdef READING
    const unsigned int plain = 2;
#else
    const unsigned int plain = 6;
#endif
    if (size < 4 || most < 4 + LINE || seed % plain == 0) return LLVMFuzzerMutate(data, size, most);
    if (seed % 64 == 3) return 4 + lengthen(data + 4, size - 4, most - 4, seed);
    if (seed % 16 == 1) data[seed / 16 % 4] = (uint8_t)(seed >> 8);
    return 4 + mutate_sheet(data + 4, size - 4, most - 4, seed);
}
