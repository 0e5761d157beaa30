/*
 * How much stack a call takes, its return address counted: it runs on a stack painted with one byte, and what is no
 * longer that byte afterwards was used. The same is done with a function that does nothing in its place, and what that
 * one uses is the caller's. Prints a line for each call; the panel has 2,048 bytes.
 */
#include <stdio.h>
#include <stdlib.h>
#include <string.h>
#include <ucontext.h>

#include "desk.h"

enum { STACK = 1 << 20, PAINT = 0x5C, WORD = 8, APART = 256 };

static uint8_t stack[STACK] __attribute__((aligned(16)));
static ucontext_t here, there;

static struct desk_post row[DESK_POSTS], second[DESK_POSTS];
static uint32_t kinds[DESK_POSTS], table[2 * DESK_POSTS + 1], tracks[60];
static struct desk_head head;
static struct desk_told told;
static struct desk_verdict verdict;
static struct desk_found found;
static struct desk_found_tracks found_tracks;
static struct desk_worked worked;
static struct desk_worked_tracks worked_tracks;
static struct desk_since since;
static struct desk_exported exported;
static struct desk_imported imported;
static desk_entry entries[60];
static uint8_t sheet[2 * DESK_BLOCK], out[2 * DESK_BLOCK];
static uint8_t text[DESK_TEXT];
static uint32_t number;

/* What is called: the call that is measured, or `empty`. */
static void (*volatile callee)(void);

/* Uses no stack. Where the result of a call is stored, its address is the first argument, and returned. */
static void *empty(void *result) { return result; }

/* The callee, as this call. */
#define AS(call) ((__typeof__(&call))callee)

static void one_valid(void) { told.answer = AS(desk_valid)(row, DESK_POSTS, head); }
static void one_start(void) { told = AS(desk_start)(row, DESK_POSTS, kinds, DESK_POSTS, 0); }
static void one_event(void) { told = AS(desk_event)(row, DESK_POSTS, head, 5, 0, 0); }
static void one_check(void) { number = AS(desk_check)(sheet, DESK_BLOCK, 0); }
static void one_test(void) { verdict = AS(desk_test)(sheet, sizeof sheet); }
static void one_read(void) { found = AS(desk_read)(sheet, sizeof sheet, kinds, DESK_POSTS, entries, 60); }
static void one_write(void)
{
    number = AS(desk_write)(kinds, DESK_POSTS, 0, (const desk_entry *)entries, 60, sheet, sizeof sheet);
}
static void one_work(void) { worked = AS(desk_work)(sheet, sizeof sheet, out, sizeof out); }
static void one_why(void) { since = AS(desk_why)(out, sizeof out, 60); }
static void one_export(void) { exported = AS(desk_export)(out, sizeof out, text, sizeof text); }
static void one_import(void) { imported = AS(desk_import)(text, exported.bytes, sheet, sizeof sheet); }
static void one_wrong(void) { imported = AS(desk_import)(text, exported.bytes - 1, sheet, sizeof sheet); }

/* The same on two tracks. */
static void one_valid_tracks(void)
{
    told.answer = AS(desk_valid_tracks)(row, DESK_POSTS, second, DESK_POSTS, DESK_POLARISED, head);
}
static void one_start_tracks(void)
{
    told = AS(desk_start_tracks)(row, DESK_POSTS, second, DESK_POSTS, kinds, DESK_POSTS, kinds, DESK_POSTS,
                                 DESK_POLARISED, 0);
}
static void one_event_tracks(void)
{
    told = AS(desk_event_tracks)(row, DESK_POSTS, second, DESK_POSTS, DESK_POLARISED, head, 0, 5, 0, 0);
}
/* The announcement of the other track between the same two posts. */
static void one_meets(void)
{
    told = AS(desk_event_tracks)(row, DESK_POSTS, second, DESK_POSTS, DESK_POLARISED, head, 1, 5, DESK_POSTS - 2, 0);
}
static void one_test_tracks(void) { verdict = AS(desk_test_tracks)(sheet, sizeof sheet); }
static void one_read_tracks(void)
{
    found_tracks = AS(desk_read_tracks)(sheet, sizeof sheet, table, 2 * DESK_POSTS + 1, entries, 60, tracks, 60);
}
static void one_write_tracks(void)
{
    number = AS(desk_write_tracks)(2, table, 2 * DESK_POSTS + 1, 0, (const desk_entry *)entries, 60, tracks, 60, sheet,
                                   sizeof sheet);
}
static void one_work_tracks(void) { worked_tracks = AS(desk_work_tracks)(sheet, sizeof sheet, out, sizeof out); }
static void one_why_tracks(void) { since = AS(desk_why_tracks)(out, sizeof out, 60); }

/* Adds to the first event word, and takes as much off the check. */
static void add_to_event(uint32_t by)
{
    uint32_t block[DESK_BLOCK / sizeof by];

    memcpy(block, sheet + DESK_BLOCK, sizeof block);
    block[1] += by;
    block[127] -= by;
    memcpy(sheet + DESK_BLOCK, block, sizeof block);
}

/* The caller of the callee. */
static void (*caller)(void);
static volatile size_t place;

/* Further down than what begins and ends a context uses of its stack. */
static void apart(void)
{
    volatile uint8_t room[APART];

    room[place] = 0;
    caller();
    (void)room[place];
}

/* The bytes of stack that a call of the callee alters, from the highest down, in whole words: a used byte may hold the
 * paint by chance, but not a whole word of it. */
static size_t used(void (*what)(void))
{
    size_t low = 0;

    callee = what;
    memset(stack, PAINT, sizeof stack);
    if (getcontext(&there) != 0)
        exit(1);
    there.uc_stack.ss_sp = stack;
    there.uc_stack.ss_size = sizeof stack;
    there.uc_link = &here;
    makecontext(&there, apart, 0);
    if (swapcontext(&here, &there) != 0)
        exit(1);
    while (low < sizeof stack && stack[low] == PAINT)
        low++;
    return (sizeof stack - low + WORD - 1) / WORD * WORD;
}

/* The empty call first, since its result is none; and twice, since the loader may bind what the caller itself calls. */
static void print(const char *name, void (*one)(void), void (*what)(void), uint32_t wanted, const uint32_t *got)
{
    size_t without;

    caller = one;
    used((void (*)(void))empty);
    without = used((void (*)(void))empty);
    printf("%s %zu\n", name, used(what) - without + WORD);
    if (*got != wanted) {
        fprintf(stderr, "stack: %s answered %u, not %u\n", name, *got, wanted);
        exit(1);
    }
}

/* A call by its own name and by another. */
#define NAMED(name, one, call, wanted, got) print(name, one, (void (*)(void))call, wanted, got)
#define PRINT(one, call, wanted, got) NAMED(#call, one, call, wanted, got)

static void on_two_tracks(void)
{
    /* the kinds twice, and a polarised circuit; the last event but one is of track 2 */
    memcpy(table, kinds, sizeof kinds);
    memcpy(table + DESK_POSTS, kinds, sizeof kinds);
    tracks[58] = 1;
    PRINT(one_start_tracks, desk_start_tracks, 0, &told.answer);
    head = told.head;
    PRINT(one_event_tracks, desk_event_tracks, 0, &told.answer);
    head = told.head;
    NAMED("desk_event_tracks, refused", one_meets, desk_event_tracks, 25, &told.answer);
    PRINT(one_valid_tracks, desk_valid_tracks, 1, &told.answer);
    PRINT(one_write_tracks, desk_write_tracks, 0, &number);
    PRINT(one_test_tracks, desk_test_tracks, 0, &verdict.number);
    PRINT(one_read_tracks, desk_read_tracks, 0, &found_tracks.number);
    add_to_event(1u << 17);
    NAMED("desk_test_tracks, refused", one_test_tracks, desk_test_tracks, 24, &verdict.number);
    NAMED("desk_read_tracks, refused", one_read_tracks, desk_read_tracks, 24, &found_tracks.number);
    NAMED("desk_work_tracks, refused", one_work_tracks, desk_work_tracks, 24, &worked_tracks.number);
    add_to_event(-(1u << 17));
    PRINT(one_work_tracks, desk_work_tracks, 0, &worked_tracks.number);
    PRINT(one_why_tracks, desk_why_tracks, 1, &since.position);
}

int main(void)
{
    /* intermediate posts in both forms by turns, and a short terminus */
    for (size_t i = 1; i < DESK_POSTS - 1; i++)
        kinds[i] = i % 2 == 0 ? 4 : 20;
    kinds[DESK_POSTS - 1] = 17;
    /* announced, and then refused 8 since event 1 */
    for (size_t i = 0; i < 60; i++)
        memcpy(entries[i], (desk_entry){i == 0 ? 5 : 1, 0, 31, 0}, sizeof entries[i]);
    PRINT(one_start, desk_start, 0, &told.answer);
    head = told.head;
    PRINT(one_event, desk_event, 0, &told.answer);
    head = told.head;
    NAMED("desk_event, refused", one_event, desk_event, 9, &told.answer);
    PRINT(one_valid, desk_valid, 1, &told.answer);
    PRINT(one_write, desk_write, 0, &number);
    PRINT(one_check, desk_check, 1, &number);
    PRINT(one_test, desk_test, 0, &verdict.number);
    PRINT(one_read, desk_read, 0, &found.number);
    add_to_event(1u << 16);
    NAMED("desk_test, refused", one_test, desk_test, 24, &verdict.number);
    NAMED("desk_read, refused", one_read, desk_read, 24, &found.number);
    NAMED("desk_work, refused", one_work, desk_work, 24, &worked.number);
    add_to_event(-(1u << 16));
    PRINT(one_work, desk_work, 0, &worked.number);
    PRINT(one_why, desk_why, 1, &since.position);
    PRINT(one_export, desk_export, 0, &exported.number);
    PRINT(one_import, desk_import, 0, &imported.number);
    NAMED("desk_import, refused", one_wrong, desk_import, 28, &imported.number);
    on_two_tracks();
    return 0;
}
