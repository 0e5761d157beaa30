/*
 * Works the sheet on standard input, which is the paper's fifteen events, and asks since when its refusals hold.
 * Says what is wrong and ends with 1 if an answer is another than the one expected.
 */
#include <stdio.h>

#include "desk.h"

enum { BYTES = 2 * DESK_BLOCK, CHECK = DESK_BLOCK - 4 };

static unsigned wrong;

static void expect(const char *which, const uint8_t *sheet, size_t n, uint32_t position, struct desk_since right)
{
    struct desk_since got = desk_why(sheet, n, position);

    if (got.number == right.number && got.block == right.block && got.position == right.position)
        return;
    fprintf(stderr, "why: %s, position %u: %u %u %u, not %u %u %u\n", which, position, got.number, got.block,
            got.position, right.number, right.block, right.position);
    wrong++;
}

/* Alters the highest byte of the word of the event at this position of block 1, and its check by as much. */
static void put_bits(uint8_t *sheet, uint32_t position)
{
    uint8_t *block = sheet + DESK_BLOCK;

    block[4 + 8 * position + 3] += 0x40;
    block[CHECK + 3] -= 0x40;
}

int main(void)
{
    static uint8_t handed_in[BYTES], sheet[BYTES];
    const struct desk_since strike = {0, 0, 2}, none = {29, 0, 0};

    if (fread(handed_in, 1, BYTES, stdin) != BYTES || desk_work(handed_in, BYTES, sheet, BYTES).number != 0) {
        fprintf(stderr, "why: the sheet is not worked\n");
        return 1;
    }
    /* L was dropped by the strike; the announcement, event 6, found it down. */
    expect("worked", sheet, BYTES, 5, strike);
    expect("worked", sheet, BYTES, 13, strike);
    expect("worked, an event taken", sheet, BYTES, 1, none);
    expect("worked, an event refused 12", sheet, BYTES, 9, none);
    expect("worked, no event", sheet, BYTES, 0, none);
    expect("worked, no event", sheet, BYTES, 16, none);
    expect("worked, no event", sheet, BYTES, UINT32_MAX, none);
    expect("not answered", handed_in, BYTES, 5, none);
    expect("cut", sheet, BYTES - 1, 5, (struct desk_since){18, 0, 0});
    /* The field that is bad is named by its position in the block, from 0. */
    put_bits(sheet, 14);
    expect("upper bits of the last event", sheet, BYTES, 5, (struct desk_since){24, 1, 14});
    put_bits(sheet, 4);
    expect("upper bits of two events", sheet, BYTES, 0, (struct desk_since){24, 1, 4});
    sheet[DESK_BLOCK] ^= 1;
    expect("damaged", sheet, BYTES, 5, (struct desk_since){19, 1, 0});
    return wrong == 0 ? 0 : 1;
}
