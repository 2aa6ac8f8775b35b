/* Memory lent to the calls, so that a byte read or written outside of it is noticed. Two ways: lent_pages.c ends each part at a page that can't be
 * touched, lent_heap.c takes each part from the heap for valgrind to watch. */
#ifndef LENT_H
#define LENT_H

#include <stddef.h>
#include <stdint.h>

/* Each argument of a call has a place of its own; of halls, each hall's, from the one named on. */
enum place {
    SHEET,
    SECOND,
    LISTING,
    PLACING,
    OUT,
    MARKS,
    LOWS,
    HIGHS,
    NUMBERS,
    HALL_SHEET,
    HALL_LISTING = HALL_SHEET + 4,
    HALL_PLACING = HALL_LISTING + 4,
    PLACES = HALL_PLACING + 4
};

/* A copy of these bytes, or numbers, in memory of just that size. */
const uint8_t *lend_bytes(enum place place, const void *bytes, size_t size);
const uint32_t *lend_numbers(enum place place, const uint32_t *numbers, size_t count);

/* A buffer of just that size, of bytes that are the same every time; or of so many words. */
uint8_t *lend_buffer(enum place place, size_t size);
uint64_t *lend_words(enum place place, size_t count);

/* Takes the part at a place back: all its bytes from `written` on, and all around it, must be as they were lent. Of
 * words too, `written` is in bytes. */
void take_back(enum place place, size_t written);

/* Says what is wrong and stops the program. */
_Noreturn void fail(const char *what);

#endif
