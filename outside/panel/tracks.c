/*
 * Plays the sheet of two tracks on standard input through desk.h, event by event, as a panel would, and prints its
 * listing. Then writes the sheet with those answers, which must be the bytes that desk_work_tracks makes.
 */
#include <stdio.h>
#include <string.h>

#include "desk.h"

enum { TABLE = 2 * DESK_POSTS + 1 };

static uint8_t sheet[DESK_SHEET], played[DESK_SHEET], worked[DESK_SHEET];
static uint32_t table[TABLE], tracks[DESK_EVENTS];
static desk_entry events[DESK_EVENTS];
static struct desk_post rows[2][DESK_POSTS];

static void print_sections(uint32_t track, size_t n)
{
    for (size_t s = 0; s + 1 < n; s++) {
        const struct desk_post *up = &rows[track][s], *down = up + 1;

        printf("S %zu %u %u %u %u %u %u %u %u %d %u\n", s, up->a, down->r, up->x, down->q, down->e, up->y, up->v, up->g,
               (up->word & DESK_RL) == 0, track);
    }
}

/* Takes the events from the fresh lines, and fills in their answers. Whether the lines may be used at the end. */
static bool play(const struct desk_found_tracks *found)
{
    size_t n = found->posts;
    uint32_t circuit = table[2 * n];
    struct desk_told told =
        desk_start_tracks(rows[0], n, rows[1], n, table, n, table + n, n, circuit, found->stamp);

    for (uint32_t i = 0; i < found->events; i++) {
        uint32_t *event = events[i];

        told = desk_event_tracks(rows[0], n, rows[1], n, circuit, told.head, tracks[i], event[0], event[1], event[3]);
        event[2] = told.answer;
        printf("%u %u %u %u %u\n", i + 1, event[0], event[1], event[2], tracks[i]);
    }
    return desk_valid_tracks(rows[0], n, rows[1], n, circuit, told.head);
}

int main(void)
{
    size_t bytes = fread(sheet, 1, sizeof sheet, stdin);
    struct desk_found_tracks found =
        desk_read_tracks(sheet, bytes, table, TABLE, events, DESK_EVENTS, tracks, DESK_EVENTS);

    if (found.number != 0 || found.tracks != 2 || !play(&found))
        return 1;
    print_sections(0, found.posts);
    print_sections(1, found.posts);
    if (desk_write_tracks(2, table, 2 * found.posts + 1, found.stamp, (const desk_entry *)events, found.events, tracks,
                          found.events, played, sizeof played) != 0 ||
        desk_work_tracks(sheet, bytes, worked, sizeof worked).number != 0)
        return 1;
    return memcmp(played, worked, bytes) == 0 ? 0 : 1;
}
