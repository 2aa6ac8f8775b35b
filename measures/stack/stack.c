/* How much stack each call needs beyond what it is lent: it runs in a thread on painted memory, and the lowest byte
 * that changed says how deep it went. */
#include "kiwimound.h"
#include "packed.h"

#include <pthread.h>
#include <stdio.h>
#include <stdlib.h>
#include <string.h>

enum { STACK = 1 << 20, PAINT = 0xA5, LIMIT = 32 << 10 };

static uint8_t stack[STACK] __attribute__((aligned(4096)));
static uint8_t sheet[70000], listing[KIWIMOUND_LISTING_BYTES], out[70000];
static uint64_t placing[KIWIMOUND_PLACING_WORDS];
static size_t size;
static uint32_t seed;
static uint8_t marks[96];
static uint32_t lows[96], highs[96];
static kiwimound_reading reading;

static void nothing(void) {}
static void read_sheet(void) { reading = kiwimound_read(sheet, size); }
static void write_sheet(void) {
    kiwimound_write(reading.slots, reading.blowers, reading.wake, reading.rations, reading.numbers, 4 * reading.rations, out, sizeof out);
}
static void practice(void) { kiwimound_practice(seed, out, sizeof out); }
static void find(void) { kiwimound_find(sheet, size, KIWIMOUND_MAX_TANK); }
static void plan(void) { kiwimound_plan(sheet, size, listing, sizeof listing); }
static void plan_placing(void) { kiwimound_plan_placing(sheet, size, placing, KIWIMOUND_PLACING_WORDS); }
static void plan_both(void) {
    kiwimound_plan_both(sheet, size, listing, sizeof listing, placing, KIWIMOUND_PLACING_WORDS);
}
static void plan_share(void) {
    kiwimound_plan_share(sheet, size, listing, sizeof listing, placing, KIWIMOUND_PLACING_WORDS);
}
/* The sheet four times, behind a limit that leaves the second hall fewer blowers and the last none. */
static void plan_halls(void) {
    static uint8_t listings[KIWIMOUND_MAX_HALLS][KIWIMOUND_LISTING_BYTES];
    static uint64_t placings[KIWIMOUND_MAX_HALLS][KIWIMOUND_PLACING_WORDS];
#define LEND(h) sheet, size, listings[h], sizeof listings[h], placings[h], KIWIMOUND_PLACING_WORDS
    kiwimound_plan_halls(12, KIWIMOUND_MAX_HALLS, LEND(0), LEND(1), LEND(2), LEND(3));
    kiwimound_plan_halls(KIWIMOUND_MAX_LIMIT, KIWIMOUND_MAX_HALLS, LEND(0), LEND(1), LEND(2), LEND(3));
#undef LEND
}
static void plan_number(void) { kiwimound_plan_number(sheet, size); }
static void compare(void) { kiwimound_compare(sheet, size, sheet, size); }
static void causes(void) { kiwimound_causes(sheet, size, out, sizeof out); }
static void shortfall(void) { kiwimound_shortfall(sheet, size, marks, reading.slots); }
static void bounds(void) { kiwimound_bounds(sheet, size, lows, reading.slots, highs, reading.slots); }

/* A record is four numbers in a row, as they are read. */
#define RECORDS reading.slots, reading.blowers, reading.wake, (const kiwimound_ration *)(const void *)reading.numbers, reading.rations
static void write_rations(void) { kiwimound_write_rations(RECORDS, out, sizeof out); }
static void plan_rations(void) { kiwimound_plan_rations(RECORDS, listing, sizeof listing); }
static void plan_rations_both(void) {
    kiwimound_plan_rations_both(RECORDS, listing, sizeof listing, placing, KIWIMOUND_PLACING_WORDS);
}
static void shortfall_rations(void) { kiwimound_shortfall_rations(RECORDS, marks, reading.slots); }
static void bounds_rations(void) { kiwimound_bounds_rations(RECORDS, lows, reading.slots, highs, reading.slots); }

static struct {
    const char *name;
    void (*call)(void);
    size_t deepest;
} calls[] = {
    {"nothing", nothing, 0},
    {"read", read_sheet, 0},
    {"write", write_sheet, 0},
    {"practice", practice, 0},
    {"find", find, 0},
    {"plan", plan, 0},
    {"plan_placing", plan_placing, 0},
    {"plan_both", plan_both, 0},
    {"plan_share", plan_share, 0},
    {"plan_halls", plan_halls, 0},
    {"plan_number", plan_number, 0},
    {"compare", compare, 0},
    {"causes", causes, 0},
    {"shortfall", shortfall, 0},
    {"bounds", bounds, 0},
    {"write_rations", write_rations, 0},
    {"plan_rations", plan_rations, 0},
    {"plan_rations_both", plan_rations_both, 0},
    {"shortfall_rations", shortfall_rations, 0},
    {"bounds_rations", bounds_rations, 0},
};

static uint8_t *top;

static void *run(void *call) {
    uint8_t here;
    top = &here;
    (*(void (**)(void))call)();
    return NULL;
}

static size_t depth_of(void (*call)(void)) {
    pthread_attr_t attributes;
    pthread_t thread;
    memset(stack, PAINT, sizeof stack);
    pthread_attr_init(&attributes);
    if (pthread_attr_setstack(&attributes, stack, sizeof stack) || pthread_create(&thread, &attributes, run, &call)) abort();
    pthread_join(thread, NULL);
    uint8_t *lowest = stack;
    while (*lowest == PAINT) lowest++;
    return (size_t)(top - lowest);
}

int main(void) {
    long n, sheets = 0;
    for (size_t t = 0; t < 96; t++) highs[t] = 8;
    for (; (n = next_sheet(sheet, sizeof sheet)) >= 0; sheets++) {
        size = (size_t)n;
        seed = (uint32_t)sheets; /* among the first 200 seeds are some that draw 64 rations */
        for (size_t i = 0; i < sizeof calls / sizeof *calls; i++) {
            size_t depth = depth_of(calls[i].call);
            if (depth > calls[i].deepest) calls[i].deepest = depth;
        }
    }
    size_t deepest = 0;
    printf("stack in bytes, the deepest of %ld sheets (the thread itself: %zu)\n", sheets, calls[0].deepest);
    for (size_t i = 1; i < sizeof calls / sizeof *calls; i++) {
        printf("%-18s%8zu\n", calls[i].name, calls[i].deepest);
        if (calls[i].deepest > deepest) deepest = calls[i].deepest;
    }
    if (sheets == 0 || deepest >= LIMIT) {
        printf("more than %d\n", LIMIT);
        return 1;
    }
    return 0;
}
