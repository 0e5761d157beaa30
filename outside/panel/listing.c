/* Plays the paper's listing through desk.h, event by event, as a panel would, and prints it. */
#include <stdio.h>

#include "desk.h"

static const uint32_t kinds[2] = {0, 1};

/* Event k, from 1, is stamped 1000k: its number and its post or section. */
static const uint32_t played[15][2] = {
    {1, 0}, {4, 0}, {5, 0}, {2, 0}, {1, 0}, {5, 0}, {3, 1}, {8, 0},
    {6, 1}, {3, 1}, {6, 1}, {9, 0}, {1, 0}, {10, 0}, {1, 0},
};

static void print_section(unsigned s, const struct desk_post *up, const struct desk_post *down)
{
    unsigned held = (up->word & DESK_RL) == 0;

    printf("S %u %u %u %u %u %u %u %u %u %u\n", s, up->a, down->r, up->x, down->q, down->e, up->y, up->v, up->g, held);
}

int main(void)
{
    struct desk_post row[2];
    struct desk_told told = desk_start(row, 2, kinds, 2, 0);

    if (told.answer != 0)
        return 1;
    for (uint32_t k = 1; k <= 15; k++) {
        const uint32_t *event = played[k - 1];

        told = desk_event(row, 2, told.head, event[0], event[1], 1000 * k);
        printf("%u %u %u %u\n", k, event[0], event[1], told.answer);
    }
    print_section(0, &row[0], &row[1]);
    return desk_valid(row, 2, told.head) ? 0 : 1;
}
