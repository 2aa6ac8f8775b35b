/* The reading calls: the first refusal must be the right one, and what is accepted must be written back to the same bytes. */
#include "checks.h"
#include "lent.h"

#include <stdbool.h>
#include <string.h>

enum { LINE = KIWIMOUND_LINE_BYTES };

static bool within(uint32_t low, uint32_t value, uint32_t high) { return low <= value && value <= high; }

struct refusal refusal_of(const uint32_t head[4], const uint32_t *flat, size_t count) {
    if (!within(1, head[0], KIWIMOUND_MAX_SLOTS)) return (struct refusal){3, 1};
    if (!within(1, head[1], KIWIMOUND_MAX_BLOWERS)) return (struct refusal){4, 1};
    if (head[2] > KIWIMOUND_MAX_WAKE) return (struct refusal){5, 1};
    if (head[3] > KIWIMOUND_MAX_RATIONS || count != 4 * head[3]) return (struct refusal){6, 1};
    uint32_t tank = 1, end = 0; /* of the line before */
    for (uint32_t i = 0; i < head[3]; i++, flat += 4) {
        if (!within(tank, flat[0], KIWIMOUND_MAX_TANK)) return (struct refusal){7, i + 2};
        if (!within(1, flat[1], flat[2]) || flat[2] > head[0]) return (struct refusal){8, i + 2};
        if (!within(1, flat[3], flat[2] - flat[1] + 1)) return (struct refusal){9, i + 2};
        if (flat[0] == tank && flat[1] <= end) return (struct refusal){13, i + 2};
        tank = flat[0];
        end = flat[2];
    }
    return (struct refusal){0, 0};
}

/* The checks 1 to 9 and 13 on bytes. */
static struct refusal first_refusal(const uint8_t *sheet, size_t size, uint32_t head[4], uint32_t flat[256]) {
    if (size < LINE || size > KIWIMOUND_MAX_SHEET_BYTES || size % LINE) return (struct refusal){1, 0};
    uint32_t numbers[4];
    for (size_t i = 0; i < size / LINE; i++)
        if (!numbers_of(sheet + LINE * i, numbers)) return (struct refusal){2, (uint32_t)i + 1};
    numbers_of(sheet, head);
    size_t n = size / LINE - 1;
    for (size_t i = 0; i < n && i < 64; i++) numbers_of(sheet + LINE * (i + 1), flat + 4 * i);
    return refusal_of(head, flat, 4 * n);
}

static void check_find(const uint8_t *sheet, size_t size, uint32_t tank, struct refusal expected, const uint32_t head[4], const uint32_t *flat) {
    kiwimound_part part = kiwimound_find(sheet, size, tank);
    size_t start = 0, length = 0;
    for (size_t i = 0; expected.number == 0 && i < head[3]; i++)
        if (flat[4 * i] == tank) {
            if (length == 0) start = LINE * (i + 1);
            length += LINE;
        }
    if (part.start != start || part.length != length) fail("find gives another part");
}

/* Writes numbers to buffers too short, just long enough and longer. As records, there are as many rations as the list has whole ones. */
static void check_write(const uint32_t numbers[4], const uint32_t *flat, size_t count, const uint8_t *sheet, bool as_records) {
    uint32_t head[4];
    memcpy(head, numbers, sizeof head);
    if (as_records) head[3] = (uint32_t)(count /= 4), count *= 4;
    struct refusal expected = refusal_of(head, flat, count);
    size_t least = KIWIMOUND_SHEET_BYTES(head[3] > 64 ? 64 : head[3]);
    size_t sizes[] = {0, least - 1, least, least + 30};
    for (size_t i = 0; i < 4; i++) {
        struct refusal now = expected.number == 0 && sizes[i] < least ? (struct refusal){10, 0} : expected;
        const uint32_t *list = lend_numbers(NUMBERS, flat, count);
        uint8_t *out = lend_buffer(OUT, sizes[i]);
        kiwimound_written w;
        if (as_records)
            w = kiwimound_write_rations(head[0], head[1], head[2], (const kiwimound_ration *)(const void *)list, head[3], out, sizes[i]);
        else
            w = kiwimound_write(head[0], head[1], head[2], head[3], list, count, out, sizes[i]);
        if (w.number != now.number || w.line != now.line || w.length != (now.number ? 0 : least)) fail("write answers otherwise");
        if (now.number == 0 && sheet && memcmp(out, sheet, least)) fail("write gives other bytes");
        take_back(OUT, w.length);
        take_back(NUMBERS, 4 * count);
    }
}

uint32_t check_reading(const uint8_t *bytes, size_t size, uint32_t choice) {
    uint32_t head[4] = {0}, flat[256 + 12] = {0};
    struct refusal expected = first_refusal(bytes, size, head, flat);
    const uint8_t *sheet = lend_bytes(SHEET, bytes, size);
    kiwimound_reading r = kiwimound_read(sheet, size);
    if (r.number != expected.number || r.line != expected.line) fail("read gives another refusal");
    uint32_t numbers[] = {r.slots, r.blowers, r.wake, r.rations};
    uint32_t zeros[256] = {0};
    bool accepted = r.number == 0;
    if (memcmp(numbers, accepted ? head : zeros, sizeof numbers)) fail("read gives another head line");
    if (memcmp(r.numbers, accepted ? flat : zeros, sizeof r.numbers)) fail("read gives other rations");
    check_find(sheet, size, choice % (KIWIMOUND_MAX_TANK + 2), expected, head, flat);
    check_find(sheet, size, flat[4 * (choice % 64)], expected, head, flat);
    check_find(sheet, size, choice, expected, head, flat);
    take_back(SHEET, size);
    size_t n = head[3] > 64 ? 64 : head[3];
    check_write(head, flat, 4 * n, accepted ? bytes : NULL, false);
    check_write(head, flat, 4 * n, accepted ? bytes : NULL, true);
    /* One number changed, and a list of another length; as records, also more than there can be. */
    flat[choice % 256] = choice >> 8 & 1 ? choice >> 16 : choice >> 26;
    check_write(head, flat, 4 * n + choice % 7 % 3, NULL, false);
    check_write(head, flat, choice % 5 ? 4 * n : 4 * (64 + choice % 3), NULL, true);
    return r.number;
}
