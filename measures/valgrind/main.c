/* Every call on the sheets of standard input, with memory from the heap, for valgrind to watch. */
#include "checks.h"
#include "packed.h"

#include <stdio.h>

int main(void) {
    static uint8_t sheet[70000];
    uint32_t numbers[14] = {0}, fates[4] = {0}, shares[101] = {0}, cut = 0, sheets = 0;
    for (long n; (n = next_sheet(sheet, sizeof sheet)) >= 0; sheets++) {
        uint32_t choice = sheets * 2654435769u;
        check_reading(sheet, (size_t)n, choice);
        check_practice(choice);
        numbers[check_planning(sheet, (size_t)n, choice).number]++;
        uint32_t halls = check_halls(sheet, (size_t)n, choice);
        for (uint32_t h = 0; h < KIWIMOUND_MAX_HALLS; h++) fates[halls >> 2 * h & 3]++;
        shares[check_share(sheet, (size_t)n, choice)]++;
    }
    printf("%u sheets, by number:", sheets);
    for (uint32_t i = 0; i < 14; i++)
        if (numbers[i]) printf(" %u of %u", numbers[i], i);
    printf("\n%u halls planned, %u held, %u refused\n", fates[PLANNED], fates[HELD], fates[REFUSED]);
    for (uint32_t i = 1; i < 100; i++) cut += shares[i];
    printf("for a share: %u planned whole, %u cut, %u refused\n", shares[100], cut, shares[0]);
    return sheets == 0;
}
