/* Sheets on standard input, each after its length in four bytes, the lowest first. */
#ifndef PACKED_H
#define PACKED_H

#include <stddef.h>
#include <stdint.h>
#include <stdio.h>

/* The next sheet, in `sheet`, which has `most` bytes; its size, or -1 at the end. */
static long next_sheet(uint8_t *sheet, size_t most) {
    uint8_t head[4];
    if (fread(head, 1, 4, stdin) != 4) return -1;
    size_t size = head[0] | (size_t)head[1] << 8 | (size_t)head[2] << 16 | (size_t)head[3] << 24;
    return size <= most && fread(sheet, 1, size, stdin) == size ? (long)size : -1;
}

#endif
