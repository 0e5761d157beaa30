/*
 * The ledger beside plain Rust that does the same, for time and for counts of instructions.
 *     figures WHAT ROUNDS < sheet
 * WHAT is one of
 *     ledger, tested, simple   the sheet's events, one by one: desk_event; the Rust model's event with all its tests;
 *                              the same on a line that is not tested
 *     ledger_tracks, tested_tracks, simple_tracks   the same three of a sheet of two tracks: desk_event_tracks, and the
 *                              Rust model's event on two lines, tested and not
 *     block, sum               desk_check of each block; a plain Rust sum of each block
 *     check, copy              desk_test; memcpy of the sheet
 *     work, listing            desk_work; the Rust model's listing
 *     work_tracks              desk_work_tracks, of a sheet of either form
 *     why, plain               desk_why and the Rust model's answer, of the last event that is refused 8, 9 or 13
 *     export, plain_export     desk_export, and plain Rust that does the same
 *     import, plain_import     desk_import of the sheet's register, and plain Rust that does the same
 * Prints how long the rounds took, their number, and a number made of the results of one round: it is the same for
 * ledger, tested and simple, for the same three of two tracks, for block and sum, for why and plain, and for each of
 * the last two pairs.
 */
#include <stdio.h>
#include <stdlib.h>
#include <string.h>
#include <time.h>

#include "desk.h"

typedef struct desk_told event_call(struct desk_post *, size_t, struct desk_head, uint32_t, uint32_t, uint32_t);
event_call tested_event, simple_event;
typedef struct desk_told event_tracks_call(struct desk_post *, size_t, struct desk_post *, size_t, uint32_t,
                                           struct desk_head, uint32_t, uint32_t, uint32_t, uint32_t);
event_tracks_call tested_event_tracks, simple_event_tracks;
uint32_t plain_sum(const uint8_t *block);
size_t plain_listing(const uint8_t *sheet, size_t n, uint8_t *page, size_t room);
uint32_t plain_why(const uint8_t *sheet, size_t n, uint32_t position);
size_t plain_export(const uint8_t *sheet, size_t n, uint8_t *out, size_t room);
size_t plain_import(const uint8_t *text, size_t n, uint8_t *out, size_t room);

static uint8_t input[1 << 16];
static size_t input_bytes;
static uint32_t table[2 * DESK_POSTS + 1];
static desk_entry entries[DESK_EVENTS];
static uint32_t tracks[DESK_EVENTS];
static struct desk_found_tracks found;
static uint8_t page[1 << 17];
static uint8_t done[DESK_SHEET];
static uint32_t last_refused;
static uint8_t text[DESK_TEXT];
static size_t text_bytes;

static _Noreturn void fail(const char *why)
{
    fprintf(stderr, "figures: %s\n", why);
    exit(1);
}

/* The records of a line, folded into a number. */
static uint32_t fold_row(uint32_t fold, const struct desk_post *row)
{
    for (uint32_t i = 0; i < found.posts; i++)
        fold = fold * 31 + (row[i].word ^ row[i].a ^ row[i].q << 8);
    return fold;
}

/* One round of events from the fresh line: answers and records, folded into one number. */
static uint32_t play(event_call *event)
{
    static struct desk_post row[DESK_POSTS];
    struct desk_told told = desk_start(row, found.posts, table, found.posts, found.stamp);
    uint32_t fold = told.answer;

    for (uint32_t i = 0; i < found.events; i++) {
        told = event(row, found.posts, told.head, entries[i][0], entries[i][1], entries[i][3]);
        fold = fold * 31 + told.answer;
    }
    return fold_row(fold, row);
}

/* The same of two tracks. */
static uint32_t play_tracks(event_tracks_call *event)
{
    static struct desk_post first[DESK_POSTS], second[DESK_POSTS];
    size_t n = found.posts;
    uint32_t circuit = table[2 * n];
    struct desk_told told = desk_start_tracks(first, n, second, n, table, n, table + n, n, circuit, found.stamp);
    uint32_t fold = told.answer;

    for (uint32_t i = 0; i < found.events; i++) {
        told = event(first, n, second, n, circuit, told.head, tracks[i], entries[i][0], entries[i][1], entries[i][3]);
        fold = fold * 31 + told.answer;
    }
    return fold_row(fold_row(fold, first), second);
}

static uint32_t blocks(void)
{
    uint32_t bad = 0;

    for (size_t b = 0; b < input_bytes / DESK_BLOCK; b++)
        bad += !desk_check(input + b * DESK_BLOCK, DESK_BLOCK, (uint32_t)b);
    return bad;
}

static uint32_t sums(void)
{
    uint32_t bad = 0;

    for (size_t b = 0; b < input_bytes / DESK_BLOCK; b++)
        bad += plain_sum(input + b * DESK_BLOCK) != 317944 + b;
    return bad;
}

static uint32_t copy(void)
{
    memcpy(page, input, input_bytes);
    return page[input_bytes / 2];
}

static uint32_t worked(void)
{
    return desk_work(input, input_bytes, page, sizeof page).number;
}

static uint32_t listed(void)
{
    return (uint32_t)plain_listing(input, input_bytes, page, sizeof page);
}

/* The sheet worked, and the position of its last event that may be asked about. */
static void work_once(void)
{
    static desk_entry answered[DESK_EVENTS];

    desk_work(input, input_bytes, done, sizeof done);
    desk_read(done, input_bytes, table, DESK_POSTS, answered, DESK_EVENTS);
    for (uint32_t i = 0; i < found.events; i++)
        if (answered[i][2] == 8 || answered[i][2] == 9 || answered[i][2] == 13)
            last_refused = i + 1;
}

/* How many bytes a call made, and some of them, folded into one number. */
static uint32_t fold(size_t bytes, const uint8_t *made)
{
    return bytes == 0 ? 0 : (uint32_t)bytes * 31 + made[bytes / 2] + made[bytes - 1];
}

static uint32_t round_of_register(const char *what)
{
    if (strcmp(what, "export") == 0)
        return fold(desk_export(input, input_bytes, page, sizeof page).bytes, page);
    if (strcmp(what, "plain_export") == 0)
        return fold(plain_export(input, input_bytes, page, sizeof page), page);
    if (strcmp(what, "import") == 0)
        return fold(desk_import(text, text_bytes, page, sizeof page).bytes, page);
    if (strcmp(what, "plain_import") == 0)
        return fold(plain_import(text, text_bytes, page, sizeof page), page);
    fail("no such figure");
}

static uint32_t round_of_tracks(const char *what)
{
    if (strcmp(what, "work_tracks") == 0)
        return desk_work_tracks(input, input_bytes, page, sizeof page).number;
    if (found.tracks != 2)
        fail("the input is no sheet of two tracks");
    if (strcmp(what, "ledger_tracks") == 0)
        return play_tracks(desk_event_tracks);
    if (strcmp(what, "tested_tracks") == 0)
        return play_tracks(tested_event_tracks);
    if (strcmp(what, "simple_tracks") == 0)
        return play_tracks(simple_event_tracks);
    fail("no such figure");
}

static uint32_t round_of(const char *what)
{
    if (strstr(what, "_tracks") != NULL)
        return round_of_tracks(what);
    if (found.tracks != 1)
        fail("the input is no sheet of one track");
    if (strcmp(what, "ledger") == 0)
        return play(desk_event);
    if (strcmp(what, "tested") == 0)
        return play(tested_event);
    if (strcmp(what, "simple") == 0)
        return play(simple_event);
    if (strcmp(what, "check") == 0)
        return desk_test(input, input_bytes).number;
    if (strcmp(what, "block") == 0)
        return blocks();
    if (strcmp(what, "sum") == 0)
        return sums();
    if (strcmp(what, "copy") == 0)
        return copy();
    if (strcmp(what, "work") == 0)
        return worked();
    if (strcmp(what, "listing") == 0)
        return listed();
    if (strcmp(what, "why") == 0)
        return desk_why(done, input_bytes, last_refused).position;
    if (strcmp(what, "plain") == 0)
        return plain_why(done, input_bytes, last_refused);
    return round_of_register(what);
}

int main(int count, char **args)
{
    struct timespec from, to;
    uint32_t result = 0;
    long rounds;

    if (count != 3)
        fail("usage: figures WHAT ROUNDS");
    rounds = atol(args[2]);
    input_bytes = fread(input, 1, sizeof input, stdin);
    found = desk_read_tracks(input, input_bytes, table, 2 * DESK_POSTS + 1, entries, DESK_EVENTS, tracks, DESK_EVENTS);
    if (found.number != 0) {
        fprintf(stderr, "figures: %u, block %u, position %u\n", found.number, found.block, found.position);
        fail("the input is no sheet");
    }
    if (strcmp(args[1], "why") == 0 || strcmp(args[1], "plain") == 0)
        work_once();
    if (strcmp(args[1], "import") == 0 || strcmp(args[1], "plain_import") == 0)
        text_bytes = desk_export(input, input_bytes, text, sizeof text).bytes;
    clock_gettime(CLOCK_MONOTONIC, &from);
    for (long i = 0; i < rounds; i++)
        result = round_of(args[1]);
    clock_gettime(CLOCK_MONOTONIC, &to);
    printf("%s %.9f s %ld rounds, %u\n", args[1],
           (double)(to.tv_sec - from.tv_sec) + 1e-9 * (double)(to.tv_nsec - from.tv_nsec), rounds, result);
    return 0;
}
