/* Changes to sheets that keep, most of the time, what makes a sheet well-formed: bytes changed at random hardly ever get past the reader. */
#ifndef MUTATE_H
#define MUTATE_H

#include <stddef.h>
#include <stdint.h>

/* Changes the sheet of that size in place, into at most `most` bytes; gives its new size. */
size_t mutate_sheet(uint8_t *sheet, size_t size, size_t most, unsigned int seed);

#endif
