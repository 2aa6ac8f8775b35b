/* The call for practice sheets: the numbers are drawn again, and must pass the checks of a sheet. */
#include "checks.h"
#include "lent.h"

#include <string.h>

enum { LINE = KIWIMOUND_LINE_BYTES, MOST = KIWIMOUND_MAX_RATIONS, LONGEST = KIWIMOUND_PRACTICE_BYTES };

/* A draw of request 107. In 64 bits nothing is lost before the remainder drops what passes 32. */
static uint32_t draw(uint64_t *s) {
    *s = (1664525 * *s + 1013904223) % 4294967296u;
    return (uint32_t)(*s / 65536);
}

/* The numbers that a seed draws: those of the head line, and four for each ration. */
static void draw_day(uint32_t seed, uint32_t head[4], uint32_t flat[4 * MOST]) {
    uint64_t s = seed;
    head[0] = 96;
    head[1] = 1 + draw(&s) % 8;
    head[2] = draw(&s) % 201;
    head[3] = draw(&s) % 65;
    for (uint32_t i = 0; i < head[3]; i++, flat += 4) {
        flat[0] = i + 1;
        flat[1] = 1 + draw(&s) % 96;
        flat[2] = flat[1] + draw(&s) % (97 - flat[1]);
        flat[3] = 1 + draw(&s) % (flat[2] - flat[1] + 1);
    }
}

uint32_t check_practice(uint32_t seed) {
    uint32_t head[4], flat[4 * MOST];
    uint8_t sheet[LONGEST];
    draw_day(seed, head, flat);
    if (refusal_of(head, flat, 4 * (size_t)head[3]).number) fail("a practice sheet that is refused");
    for (uint32_t i = 0; i <= head[3]; i++) {
        put_line(sheet + LINE * i, i ? flat + 4 * (i - 1) : head);
    }
    size_t least = KIWIMOUND_SHEET_BYTES(head[3]);
    size_t sizes[] = {0, least - LINE, least - 1, least, least + 1, LONGEST, LONGEST + 30};
    for (size_t i = 0; i < sizeof sizes / sizeof *sizes; i++) {
        uint8_t *out = lend_buffer(OUT, sizes[i]);
        kiwimound_written w = kiwimound_practice(seed, out, sizes[i]);
        struct refusal expected = {sizes[i] < least ? 10 : 0, 0};
        if (w.number != expected.number || w.line != expected.line) fail("practice gives another number");
        if (w.length != (expected.number ? 0 : least)) fail("practice gives another length");
        if (memcmp(out, sheet, w.length)) fail("practice gives another sheet");
        take_back(OUT, w.length);
    }
    return head[3];
}
