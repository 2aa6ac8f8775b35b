/* Parts that end, or begin, at a page that can't be touched: the library's own code has no instrumentation, and a step outside still stops the program. */
#define _GNU_SOURCE
#include "lent.h"

#include <stdbool.h>
#include <stdio.h>
#include <stdlib.h>
#include <string.h>
#include <sys/mman.h>

enum { PAGE = 4096, MOST = 17 * PAGE };

static struct {
    uint8_t *memory; /* MOST bytes between two such pages */
    uint8_t *part;
    size_t size;
    bool is_low;
} places[PLACES];

static uint8_t pattern[MOST];

_Noreturn void fail(const char *what) {
    fprintf(stderr, "fault: %s\n", what);
    abort();
}

static void make(enum place place) {
    for (size_t i = 0; i < MOST; i++) pattern[i] = (uint8_t)(i * 7 + 3);
    uint8_t *all = mmap(NULL, MOST + 2 * PAGE, PROT_NONE, MAP_PRIVATE | MAP_ANONYMOUS, -1, 0);
    if (all == MAP_FAILED || mprotect(all + PAGE, MOST, PROT_READ | PROT_WRITE)) fail("no memory");
    places[place].memory = all + PAGE;
    memcpy(all + PAGE, pattern, MOST);
}

/* A part, in turn at the end and at the beginning of its memory. */
static uint8_t *part(enum place place, size_t size) {
    if (!places[place].memory) make(place);
    if (size > MOST) fail("more than can be lent");
    bool is_low = places[place].is_low = !places[place].is_low;
    places[place].size = size;
    return places[place].part = places[place].memory + (is_low ? 0 : MOST - size);
}

const uint8_t *lend_bytes(enum place place, const void *bytes, size_t size) {
    uint8_t *at = part(place, size);
    memcpy(at, bytes, size);
    /* What is lent to be read can't be written. */
    mprotect(places[place].memory, MOST, PROT_READ);
    return at;
}

const uint32_t *lend_numbers(enum place place, const uint32_t *numbers, size_t count) {
    return (const uint32_t *)(const void *)lend_bytes(place, numbers, 4 * count);
}

uint8_t *lend_buffer(enum place place, size_t size) { return part(place, size); }

/* Aligned at both ends of the memory, since pages and words are. */
uint64_t *lend_words(enum place place, size_t count) { return (uint64_t *)(void *)part(place, 8 * count); }

void take_back(enum place place, size_t written) {
    uint8_t *memory = places[place].memory, *at = places[place].part;
    size_t from = (size_t)(at - memory);
    if (written > places[place].size) fail("more written than lent");
    mprotect(memory, MOST, PROT_READ | PROT_WRITE);
    if (memcmp(memory, pattern, from)) fail("a byte before the buffer was changed");
    if (memcmp(at + written, pattern + from + written, MOST - from - written)) fail("a byte after what was written was changed");
    memcpy(at, pattern + from, written);
}
