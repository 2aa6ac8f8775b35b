/* Parts of the heap, each of just its size and not yet set where it is a buffer: valgrind then sees a step outside, and a byte used that nobody wrote. */
#include "lent.h"

#include <stdio.h>
#include <stdlib.h>
#include <string.h>

static struct {
    void *part;
    size_t size;
} places[PLACES];

_Noreturn void fail(const char *what) {
    fprintf(stderr, "fault: %s\n", what);
    abort();
}

static void *part(enum place place, size_t size) {
    places[place].size = size;
    places[place].part = malloc(size);
    if (!places[place].part) fail("no memory");
    return places[place].part;
}

const uint8_t *lend_bytes(enum place place, const void *bytes, size_t size) { return memcpy(part(place, size), bytes, size); }

const uint32_t *lend_numbers(enum place place, const uint32_t *numbers, size_t count) { return memcpy(part(place, 4 * count), numbers, 4 * count); }

uint8_t *lend_buffer(enum place place, size_t size) { return part(place, size); }

uint64_t *lend_words(enum place place, size_t count) { return part(place, 8 * count); }

void take_back(enum place place, size_t written) {
    if (written > places[place].size) fail("more written than lent");
    free(places[place].part);
}
