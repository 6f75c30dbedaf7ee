/* Calls through the header: E7, a step of it, and an arrival. Ends with 0 if all is as it should be. */
#include "pairing.h"

#include <string.h>

static uint8_t a[PAIRING_TABLE_BYTES], b[PAIRING_TABLE_BYTES], list[PAIRING_LIST_BYTES];
static uint8_t counts[PAIRING_COUNTS_BYTES];

#define LENT(buffer) buffer, sizeof buffer
#define DRAWING LENT(a), LENT(b), LENT(list)

static void put(uint8_t *row, uint8_t number, uint8_t horizontal, uint8_t capacity)
{
    row[0] = number;
    row[2] = horizontal;
    row[6] = capacity;
}

static uint32_t step(void)
{
    return pairing_step(DRAWING);
}

int main(void)
{
    static const uint8_t links[30] = {1, 0, 1, 0, 1, 0, 0, 0, 1, 0, 2, 0, 1, 0, 4, 0, 0, 0, 1, 0,
                                      2, 0, 2, 0, 16, 0, 0, 0, 1};
    static const uint8_t arrival[PAIRING_EDIT_BYTES] = {PAIRING_KIND_ARRIVAL, PAIRING_MASTER_B, 3, 0, 20, 0, 0, 0, 5};
    uint32_t answer;

    put(a, 1, 0, 1);
    put(a + PAIRING_NODE_BYTES, 2, 3, 2);
    put(b, 1, 1, 2);
    put(b + PAIRING_NODE_BYTES, 2, 7, 1);
    if (pairing_pair(DRAWING) != 3 || memcmp(list, links, sizeof links) != 0)
        return 1;
    memset(list + 20, 0, 10);
    answer = pairing_spare(DRAWING, PAIRING_MASTER_A, 1);
    if (PAIRING_REFUSAL(answer) != PAIRING_REFUSED_UNFINISHED || PAIRING_VALUE(answer) != 2)
        return 2;
    if (step() != 1 || memcmp(list, links, sizeof links) != 0 || step() != 0)
        return 3;
    if (pairing_edit(DRAWING, LENT(arrival)) != 3 || b[16] != 3)
        return 4;
    if (pairing_spare(DRAWING, PAIRING_MASTER_B, 3) != 5)
        return 5;
    if (pairing_bands(DRAWING, LENT(counts)) != 0)
        return 6;
    return counts[2] == 1 && counts[6] == 1 && counts[10] == 1 && counts[0] == 0 ? 0 : 7;
}
