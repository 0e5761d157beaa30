/*
 * The ledger of the block desk, for a panel written in C.
 *
 * Each call is proved to meet its contract for every input, to touch nothing but what is lent to it, and to end.
 * It keeps nothing between calls, allocates nothing and may be called from any thread on memory that no other
 * thread uses meanwhile. Nothing has to be tested first: whatever the numbers and lengths are, the call answers
 * from the paper's table.
 *
 * What C cannot be held to, and the calls rely on: each pointer leads to as many elements as the count behind it
 * says, is aligned for them, and is not null even where the count is 0; what one call may write (no `const`)
 * overlaps nothing else lent to the same call.
 *
 * Stack: desk_valid, desk_start and desk_event, and the same three on two tracks, need at most 2,048 bytes, and
 * desk_check, desk_test, desk_read and desk_write, and the last three for both forms of a sheet, less than 512,
 * whatever they are given, the return address counted and the caller's own use not; they call nothing outside the three
 * archives. (Read off the machine code: docs/FIGURES.md has each figure.) The other calls hold a whole sheet's events,
 * and were seen to need up to 120,760 (desk_work_tracks): they are for the desk's computer.
 *
 * Link liblent.a (desk_valid, desk_start, desk_event), liblent_rows.a (desk_valid_tracks, desk_start_tracks,
 * desk_event_tracks) and libpanel.a (the others), each alone or with the others; they are for Linux on x86-64, a
 * processor with SSE4.2 (x86-64-v2).
 *
 * The calls whose name ends in _tracks are those of a desk with both tracks on one circuit; the others are those of one
 * track, as they were.
 */
#ifndef DESK_H
#define DESK_H

#include <stdbool.h>
#include <stddef.h>
#include <stdint.h>

#ifdef __cplusplus
extern "C" {
#endif

/* A sheet is at most DESK_SHEET bytes and DESK_EVENTS events; a line has 2 to DESK_POSTS posts. */
enum { DESK_POSTS = 32, DESK_EVENTS = 3780, DESK_BLOCK = 512, DESK_SHEET = 32768 };

/*
 * The register of a sheet is at most DESK_TEXT bytes, CR LF counted: the header 34, the start stamp at most 16, a post
 * at most 10, an event at most 26.
 */
enum { DESK_TEXT = 34 + 16 + DESK_POSTS * 10 + DESK_EVENTS * 26 };

/*
 * The relays, as bits of the word of a post. DESK_JAM is up while the release button of the post is stuck; it is
 * always down at the origin, which has no such button. All other bits are zero.
 */
enum {
    DESK_AN = 1, DESK_KPG = 2, DESK_L = 4, DESK_RL = 8,
    DESK_LEVER = 16, DESK_SIGNAL = 32, DESK_W314 = 64, DESK_W241 = 128,
    DESK_JAM = 256
};

/*
 * The kinds of post: 0 origin, 1 terminus, 2 station that blocks at the signal pedal, 3 station that blocks at the
 * announcement, 4 intermediate post. DESK_SHORT more is the short form of a kind from 1 to 4 (17 to 20), for a post
 * that the train reaches before it is announced there; the origin has none, and 16 is no kind. All that is said of a
 * kind holds for its short form too, but for event 3, and that DESK_KPG is up only where DESK_AN is. Post 0 has kind
 * 0, the last 1 or 17, those between 2, 3, 4, 18, 19 or 20.
 */
enum { DESK_SHORT = 16 };

/*
 * Both tracks on one circuit: two rows of the same posts, track 1's and track 2's, each with its own kinds and records,
 * and one head. A call names track 1 by 0 and track 2 by 1. Track 2 is numbered the other way: of n posts, post p of
 * the one stands beside post n - 1 - p of the other, and section s of the one faces section n - 2 - s of the other,
 * between the same two posts. The circuit is fixed at the start: with DESK_POLARISED (polarised and coded emissions)
 * one signal can be under way between two neighbouring posts, whichever track it serves; with DESK_VIBRATED (vibrated
 * current) one of each track.
 */
enum { DESK_POLARISED = 0, DESK_VIBRATED = 1 };

/*
 * The record of a post: its relays, its kind, and nine counts. Of the section downstream: announcements sent a,
 * announcements lost x (on the circuit, or to a jam of the post that they reach), releases lost y, releases received
 * v, restorations g. Of the section upstream: announcements received r, passages recorded q, releases sent e, of
 * which garage releases c.
 */
struct desk_post {
    uint32_t word, kind;
    uint32_t a, x, y, v, g;
    uint32_t r, q, e, c;
};

/* The session head: events taken so far, last stamp. */
struct desk_head {
    uint32_t taken, last;
};

/* An answer (of a start 0 or 1; of an event 0 to 17, 22 or 23, and on two tracks also 25) and the head after it. */
struct desk_told {
    uint32_t answer;
    struct desk_head head;
};

/*
 * A sheet's refusal (18, 19, 20 or 24), the block that it names, and for 24 the position in that block, from 0, of the
 * first event word whose bits 16 to 31 are not zero; in a sheet of two tracks, whose bits 17 to 31 are not. The
 * position is 0 for any other number; all three are 0 where nothing is refused. The calls below that read a sheet
 * return the same three.
 */
struct desk_verdict {
    uint32_t number, block, position;
};

/*
 * What reading returns: number, block and position, and of a good sheet its posts, start stamp and events (else
 * zeros).
 */
struct desk_found {
    uint32_t number, block, position, posts, stamp, events;
};

/* The same of a sheet of either form: also how many tracks it has, 1 or 2. The posts are those of each track. */
struct desk_found_tracks {
    uint32_t number, block, position, tracks, posts, stamp, events;
};

/* The first n records are the line; the records past them are of zeros. */
struct desk_row {
    struct desk_post posts[DESK_POSTS];
    size_t n;
};

/*
 * What working returns: number, block and position, and of a worked sheet the line and the head at its end (else n is
 * 0).
 */
struct desk_worked {
    uint32_t number, block, position;
    struct desk_row row;
    struct desk_head head;
};

/*
 * The same of a sheet of either form: also how many tracks it has, 1 or 2, the line of track 1 and that of track 2, of
 * which n is 0 in a sheet of one track (of a refusal tracks and both n are 0).
 */
struct desk_worked_tracks {
    uint32_t number, block, position, tracks;
    struct desk_row first, second;
    struct desk_head head;
};

/*
 * What desk_why and desk_why_tracks return: 0, 0 and the position of the event that is named, in the sheet, from 1; or
 * a refusal, its block and the position in that block, as desk_verdict has them.
 */
struct desk_since {
    uint32_t number, block, position;
};

/* What desk_export returns: 0, 0, 0 and how many bytes the text has; or a refusal, its block and position, and 0. */
struct desk_exported {
    uint32_t number, block, position;
    size_t bytes;
};

/*
 * What desk_import returns: 0, 0 and how many bytes the sheet has; or a refusal, the record that 28 names (the header
 * is 1; 0 for 18 and 21) and 0.
 */
struct desk_imported {
    uint32_t number;
    uint64_t record;
    size_t bytes;
};

/* An event of a sheet: its number, its post (8, 9, 10: its section), its answer (31: not yet answered), its stamp. */
typedef uint32_t desk_entry[4];

/* Whether the n records may be used as a line with this head ('A line that may be used'). Writes nothing. */
bool desk_valid(const struct desk_post *row, size_t n, struct desk_head head);

/*
 * A fresh line from a table of kinds. 0: the n records are the fresh line, and the head has 0 events and this stamp.
 * 1: the table is wrong, n is not 2 to 32, or n and k differ; then the row is as it was and the head is of zeros.
 */
struct desk_told desk_start(struct desk_post *row, size_t n, const uint32_t *kinds, size_t k, uint32_t stamp);

/*
 * One event at a post (for events 8, 9, 10: at a section). The events are 1 to 12; another number is answered 3.
 * 0: taken; the post and at most one neighbour are altered by the rule of the event, and the head has one event more
 * and this stamp. Any other answer, 1 to 17, 22 or 23, in the paper's order (22 and 23 right after 6): every record and
 * the head are as they were.
 * Event 3, the passage pedal, records a passage (DESK_KPG rises, q grows by 1) where DESK_AN is up and DESK_KPG down;
 * at a short form of a kind it asks only that DESK_KPG be down, so that a train that strikes early counts. Else it is
 * taken with no effect.
 * Event 11, the release button jams, raises DESK_JAM of its post; event 12, it is freed, drops it. At a jammed post
 * events 6, 7 and 11 are answered 22, and an announcement that arrives is taken off the circuit and counted in x: the
 * arrival is answered 0, and An and r stay. Event 12 at a post that is not jammed is answered 23.
 */
struct desk_told desk_event(struct desk_post *row, size_t n, struct desk_head head, uint32_t number, uint32_t place,
                            uint32_t stamp);

/*
 * Whether both rows may be used as the lines of two tracks with this head: n and m are equal, the circuit is
 * DESK_POLARISED or DESK_VIBRATED, desk_valid holds of each row with the head, and with DESK_POLARISED no section that
 * has a signal under way (DESK_W314 or DESK_W241) faces one of the other track that has. Writes nothing.
 */
bool desk_valid_tracks(const struct desk_post *first, size_t n, const struct desk_post *second, size_t m,
                       uint32_t circuit, struct desk_head head);

/*
 * Two fresh lines from two tables of kinds. 0: each row is the fresh line of its table, and the head has 0 events and
 * this stamp. 1: a table is wrong, n is not 2 to 32, any two of n, m, k and j differ, or the circuit is neither
 * DESK_POLARISED nor DESK_VIBRATED; then both rows are as they were and the head is of zeros.
 */
struct desk_told desk_start_tracks(struct desk_post *first, size_t n, struct desk_post *second, size_t m,
                                   const uint32_t *first_kinds, size_t k, const uint32_t *second_kinds, size_t j,
                                   uint32_t circuit, uint32_t stamp);

/*
 * One event of one track, 0 or 1, at a post of that track (for events 8, 9, 10: at a section). It is answered 1 where
 * desk_valid_tracks does not hold, and a track that is neither 0 nor 1 is answered 2, as a post that is not there:
 * behind 1 and 3, before all else. Else the answer and the change are those of desk_event on the row of that track, and
 * the other row stays as it is; but with DESK_POLARISED an event 5, 6 or 7 that would be taken is answered 25 where the
 * section that faces the one in which it sends has a signal under way on the other track. Event 5 sends in the section
 * downstream of its post, 6 and 7 in the one upstream.
 * 0: taken; the head has one event more and this stamp. Any other answer, 1 to 17, 22, 23 or 25, which comes last:
 * every record of both rows and the head are as they were.
 */
struct desk_told desk_event_tracks(struct desk_post *first, size_t n, struct desk_post *second, size_t m,
                                   uint32_t circuit, struct desk_head head, uint32_t track, uint32_t number,
                                   uint32_t place, uint32_t stamp);

/*
 * Whether one block by itself checks: n is 512, and its 128 words, each of four bytes with the lowest first, add up,
 * carried round at 2^32, to 317944 plus the block's number. Any other n is false, and so is a number from
 * 2^32 - 317944 on, since no sum carried round comes to that. For block b of a sheet, its bytes from b * 512 on and
 * the number b, it is the check of which desk_test and desk_read say 19. Writes nothing.
 */
bool desk_check(const uint8_t *block, size_t n, uint32_t number);

/*
 * Tests a sheet: 18 for its length; else the first bad block, with the first of these that is so: 19, its check is
 * wrong; 20, it is block 0 and its contents are wrong, or its number of events is; 24, an event word has a bit from 16
 * to 31 up, with the position of the first such event; 20, a word that should be zero is not. Else zeros. Writes
 * nothing.
 */
struct desk_verdict desk_test(const uint8_t *sheet, size_t n);

/*
 * Reads a sheet: its kinds to the front of `kinds`, its events to the front of `events`; what lies past them stays.
 * 18, 19, 20 and 24 as desk_test; 21 where either room is too short. A refusal leaves both rooms as they were.
 */
struct desk_found desk_read(const uint8_t *sheet, size_t n, uint32_t *kinds, size_t k, desk_entry *events, size_t m);

/*
 * Writes a sheet to the front of `out`: 512 bytes, and 512 for each 60 events or part of 60; the bytes past it stay.
 * 1: wrong table; 20: an event out of its field; 18: more than 3,780 events; 21: out is too short; then out is as
 * it was.
 */
uint32_t desk_write(const uint32_t *kinds, size_t k, uint32_t stamp, const desk_entry *events, size_t m, uint8_t *out,
                    size_t n);

/*
 * Works a sheet: takes its events one after the other from the fresh line of its table, and writes the same sheet
 * with the answers of desk_event filled in and the checks renewed to the front of `out`; the bytes past it stay. 18,
 * 19, 20 and 24 as desk_test; 20 with its block at the first event that is answered already; 21 where out is shorter
 * than the sheet. A refusal leaves out as it was.
 */
struct desk_worked desk_work(const uint8_t *sheet, size_t n, uint8_t *out, size_t room);

/*
 * The forms of a sheet. One of one track has 1 in word 0 of block 0, n in word 1, the start stamp in word 2 and then
 * its table, the n kinds. One of two tracks has 2 in word 0, n and the start stamp likewise, and its table has 2n + 1
 * words: track 1's n kinds, track 2's n kinds, the circuit. Zeros follow up to word 126. Bit 16 of an event word is the
 * track (0 for track 1) in a sheet of two tracks; in one of one track it is an upper bit like those behind it. So 24
 * speaks of bits 17 to 31 there and of bits 16 to 31 here. All else is the same in both.
 * The calls that have no _tracks in their names take sheets of one track alone: in one of two tracks the contents of
 * block 0 are wrong to them (20, block 0). Those below take either form.
 */

/* Tests a sheet of either form: the same refusals in the same order as desk_test, with 24 for the bits just named. */
struct desk_verdict desk_test_tracks(const uint8_t *sheet, size_t n);

/*
 * Reads a sheet of either form: its table to the front of `table` (n words for n posts on one track, 2n + 1 on two, as
 * they stand in block 0), its events to the front of `events` and the track of each, 0 or 1, to the front of `tracks`
 * (zeros from a sheet of one track); what lies past them stays. 18, 19, 20 and 24 as desk_test_tracks; 21 where any of
 * the three rooms is too short. A refusal leaves all three as they were.
 */
struct desk_found_tracks desk_read_tracks(const uint8_t *sheet, size_t n, uint32_t *table, size_t k,
                                          desk_entry *events, size_t m, uint32_t *tracks, size_t t);

/*
 * Writes a sheet of this form, 1 or 2 tracks, to the front of `out`; the table and the tracks are as desk_read_tracks
 * gives them. 512 bytes, and 512 for each 60 events or part of 60; the bytes past it stay.
 * 1: the form is neither 1 nor 2, or the table or the circuit is one that starting would refuse (of form 2 also where k
 * is not odd); 20: an event out of its field, a track that is not 0 or 1, or not 0 where the form is 1, or m and t
 * differ; 18: more than 3,780 events; 21: out is too short; then out is as it was.
 */
uint32_t desk_write_tracks(uint32_t form, const uint32_t *table, size_t k, uint32_t stamp, const desk_entry *events,
                           size_t m, const uint32_t *tracks, size_t t, uint8_t *out, size_t n);

/*
 * Works a sheet of either form, as desk_work does; of one of two tracks from the two fresh lines of its tables on its
 * circuit, with the answers of desk_event_tracks. 18, 19, 20 and 24 as desk_test_tracks; 20 with its block at the first
 * event that is answered already; 21 where out is shorter than the sheet. A refusal leaves out as it was.
 */
struct desk_worked_tracks desk_work_tracks(const uint8_t *sheet, size_t n, uint8_t *out, size_t room);

/*
 * Since when: of the event at this position (from 1) of a worked sheet, which was refused 8, 9 or 13, the position of
 * the event before it that put the relay of its post in the state that refuses it: the one that last dropped L for 8,
 * that last dropped RL for 9, that last raised RL for 13. An event that found the relay in that state already is not
 * named. Position 0: RL was up from the start. 18, 19, 20 and 24 with block and position as desk_test; then 29 with
 * block 0 where any of the sheet's answers, before or behind that event, is not the one that desk_work gives (so it is
 * with a sheet not yet answered), where there is no event at this position (so it is with position 0), or where its
 * answer is not 8, 9 or 13. Writes nothing.
 */
struct desk_since desk_why(const uint8_t *sheet, size_t n, uint32_t position);

/*
 * The same of a worked sheet of either form. On two tracks the relay is that of the post on the event's own track,
 * which no event of the other track alters; the position counts the events of both. 18, 19, 20 and 24 as
 * desk_test_tracks; then 29 as desk_why, with the answers that desk_work_tracks gives (an event answered 25 gets it
 * too). Writes nothing.
 */
struct desk_since desk_why_tracks(const uint8_t *sheet, size_t n, uint32_t position);

/*
 * Writes the register of a sheet, comma-separated text by RFC 4180, to the front of `out`; the bytes past it stay.
 * Records of five fields, each record ended by CR LF, the last one too; a field that is not used is empty, numbers are
 * decimal without leading zeros, and nothing is quoted:
 *     position,event,post,stamp,answer
 *     ,,,START,                              the start stamp
 *     ,KIND,POST,,                           one for each post, from post 0
 *     POSITION,EVENT,POST,STAMP,ANSWER       one for each event, from position 1
 * 18, 19, 20 and 24 with block and position as desk_test, so that a sheet of two tracks, which has no register, gets 20
 * with block 0; then 21 with block 0 where out is shorter than the text, which a room of DESK_TEXT never is. A refusal
 * leaves out as it was.
 */
struct desk_exported desk_export(const uint8_t *sheet, size_t n, uint8_t *out, size_t room);

/*
 * Writes the one sheet, of one track, that a register says to the front of `out`: 512 bytes, and 512 for each 60 events
 * or part of 60; the bytes past it stay. The text is of any length, and as desk_export writes it, but for this: any
 * field may be quoted, those of the header and empty ones too, and the last line end may be left out.
 * 28 with the number of the first record (the header is 1) that can't stand there in a right text of any length, or of
 * the first one missing. Posts stand in order from 0; post 0 has kind 0, those between 2, 3, 4, 18, 19 or 20, and a 1
 * or a 17 ends the table, at post 31 at the latest; then positions 1, 2, 3 and on; event below 32, post below 64, stamp
 * below 2^32, answer below 32. No record can stand in which the text breaks RFC 4180: a quote inside a field that is
 * not quoted, anything but a comma, CR LF or the end behind a closing quote, CR or LF alone, a quote never closed. A
 * blank line is a record, and can't stand; an empty text lacks record 1; one that ends before the table does lacks the
 * next record.
 * Then 18 with record 0 for more than 3,780 events, so that the whole text is looked at first; then 21 with record 0
 * where out is shorter than the sheet, which a room of DESK_SHEET never is. A refusal leaves out as it was.
 */
struct desk_imported desk_import(const uint8_t *text, size_t n, uint8_t *out, size_t room);

#ifdef __cplusplus
}
#endif

#endif
