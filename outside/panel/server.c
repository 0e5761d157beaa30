/*
 * Answers calls of desk.h over standard input and output, for a program that compares them with something else.
 *
 * Little-endian 32-bit words; bytes are padded with zeros to a multiple of 4. A record is the 11 words of desk_post.
 *     1 START  n k stamp, n records, k kinds                  -> answer taken last, n records
 *     2 VALID  n taken last, n records                        -> 0 or 1, n records
 *     3 EVENT  n taken last number place stamp, n records     -> answer taken last, n records
 *     4 READ   bytes k m fill, bytes                          -> number block position posts stamp events of desk_read,
 *              number block position of desk_test, k words, m entries
 *     5 WRITE  k stamp m room fill, k kinds, m entries        -> number, room bytes
 *     6 WORK   bytes room fill, bytes                         -> number block position n taken last, n records,
 *              room bytes
 *     7 RUN    n stamp k, n kinds, k times (number place stamp)
 *              -> START's reply, and EVENT's for each of the k, on one row that stays lent
 *     8 WHY    bytes position, bytes                          -> number block position
 *     9 EXPORT bytes room fill, bytes                         -> number block position bytes, room bytes
 *    10 IMPORT bytes room fill, bytes                         -> number record bytes, room bytes
 *    11 CHECK  bytes number, bytes                            -> 0 or 1, the bytes
 * Of two tracks, those of track 1 and then those of track 2 where the one is said:
 *    12 START  n m k j circuit stamp, n and m records, k and j kinds      -> answer taken last, n and m records
 *    13 VALID  n m circuit taken last, n and m records                    -> 0 or 1, n and m records
 *    14 EVENT  n m circuit taken last track number place stamp, n and m records
 *              -> answer taken last, n and m records
 *    15 RUN    n m circuit stamp k, n and m kinds, k times (track number place stamp)
 *              -> START's reply, and EVENT's for each of the k, on rows that stay lent
 *    16 READ   bytes k m t fill, bytes -> number block position tracks posts stamp events of desk_read_tracks,
 *              number block position of desk_test_tracks, k words, m entries, t words
 *    17 WRITE  form k stamp m t room fill, k words, m entries, t words    -> number, room bytes
 *    18 WORK   bytes room fill, bytes  -> number block position tracks n m taken last, n and m records, room bytes
 *    19 WHY    bytes position, bytes                                      -> number block position
 * `fill` is what a lent room holds before the call. The record and the bytes that 9 and 10 return are of 64 bits each:
 * two words, the lower one first.
 *
 * What is lent stands beside guard pages and canaries (lending.h). With the word --guards it answers nothing, and tests
 * that a touch of those is noticed.
 */
#include "desk.h"
#include "lending.h"

/* ---- records and heads */

static struct desk_post *lend_row(struct area *a, size_t n)
{
    struct desk_post *row = lend(a, n * sizeof *row);

    take(row, n * sizeof *row);
    return row;
}

/* So many records that nobody has written yet. */
static struct desk_post *lend_unwritten(struct area *a, size_t n)
{
    return memset(lend(a, n * sizeof(struct desk_post)), 0xEE, n * sizeof(struct desk_post));
}

static desk_entry *lend_entries(size_t m, uint32_t fill)
{
    return (desk_entry *)lend_filled(&entries_area, 4 * m, fill);
}

/* All of what was lent to be written, a row or a room. */
static void give_lent(const struct area *a)
{
    canary(a);
    give(a->at, a->bytes);
}

static struct desk_head take_head(void)
{
    struct desk_head head;

    head.taken = word();
    head.last = word();
    return head;
}

static void give_head(struct desk_head head)
{
    give_word(head.taken);
    give_word(head.last);
}

/* What one track is told, and the row. */
static void give_told(struct desk_told told)
{
    give_word(told.answer);
    give_head(told.head);
    give_lent(&row_area);
}

/* ---- the calls */

static void start(void)
{
    size_t n = count(MOST_POSTS), k = count(MOST_POSTS);
    uint32_t stamp = word();
    struct desk_post *row = lend_row(&row_area, n);
    uint32_t *kinds = lend_words(&kinds_area, k);

    give_told(desk_start(row, n, kinds, k, stamp));
    same(&kinds_area);
}

static void valid(void)
{
    size_t n = count(MOST_POSTS);
    struct desk_head head = take_head();
    struct desk_post *row = lend_row(&row_area, n);

    give_word(desk_valid(row, n, head));
    give_lent(&row_area);
}

static void event(void)
{
    size_t n = count(MOST_POSTS);
    struct desk_head head = take_head();
    uint32_t number = word(), place = word(), stamp = word();
    struct desk_post *row = lend_row(&row_area, n);

    give_told(desk_event(row, n, head, number, place, stamp));
}

/* Each block by itself has the check that a test of the sheet found, up to the block that it names. */
static void agree(const uint8_t *sheet, size_t n, struct desk_verdict verdict)
{
    for (size_t b = 0; verdict.number != 18 && b < n / DESK_BLOCK; b++) {
        bool named = verdict.number != 0 && b == verdict.block;

        if (desk_check(sheet + b * DESK_BLOCK, DESK_BLOCK, (uint32_t)b) == (named && verdict.number == 19))
            fail("the test of a sheet and desk_check disagree");
        if (named)
            return;
    }
}

static void read_sheet(void)
{
    size_t n = count(MOST_BYTES), k = count(MOST_POSTS), m = count(MOST_ENTRIES);
    uint32_t fill = word();
    uint8_t *sheet = lend_sheet(n);
    uint32_t *kinds = lend_filled(&kinds_area, k, fill);
    desk_entry *entries = lend_entries(m, fill);
    struct desk_verdict verdict = desk_test(sheet, n);
    struct desk_found found = desk_read(sheet, n, kinds, k, entries, m);

    agree(sheet, n, verdict);
    same(&sheet_area);
    give(&found, sizeof found);
    give(&verdict, sizeof verdict);
    give_lent(&kinds_area);
    give_lent(&entries_area);
}

static void write_sheet(void)
{
    size_t k = count(MOST_POSTS);
    uint32_t stamp = word();
    size_t m = count(MOST_ENTRIES), room = count(MOST_BYTES);
    uint32_t fill = word();
    uint32_t *kinds = lend_words(&kinds_area, k);
    const desk_entry *entries = (const desk_entry *)lend_words(&entries_area, 4 * m);
    uint8_t *out = lend_out(room, fill);

    give_word(desk_write(kinds, k, stamp, entries, m, out, room));
    same(&kinds_area);
    same(&entries_area);
    canary(&out_area);
    give_bytes(out, room);
}

/* What is lent to a call that makes bytes of bytes: a sheet or a text, and a room. */
struct made {
    uint8_t *from, *out;
    size_t n, room;
};

static struct made lend_made(void)
{
    struct made made;
    uint32_t fill;

    made.n = count(MOST_BYTES);
    made.room = count(MOST_BYTES);
    fill = word();
    made.from = lend_sheet(made.n);
    made.out = lend_out(made.room, fill);
    return made;
}

static void give_made(void)
{
    same(&sheet_area);
    canary(&out_area);
    give_bytes(out_area.at, out_area.bytes);
}

static void few_records(const struct desk_row *row)
{
    if (row->n > DESK_POSTS)
        fail("a working returned more records than there are");
}

static void give_records(const struct desk_row *row)
{
    give(row->posts, row->n * sizeof row->posts[0]);
}

static void work(void)
{
    struct made made = lend_made();
    struct desk_worked worked = desk_work(made.from, made.n, made.out, made.room);

    few_records(&worked.row);
    give_word(worked.number);
    give_word(worked.block);
    give_word(worked.position);
    give_word((uint32_t)worked.row.n);
    give_head(worked.head);
    give_records(&worked.row);
    give_made();
}

static void ask(struct desk_since (*call)(const uint8_t *, size_t, uint32_t))
{
    size_t n = count(MOST_BYTES);
    uint32_t position = word();
    uint8_t *sheet = lend_sheet(n);
    struct desk_since since = call(sheet, n, position);

    same(&sheet_area);
    give(&since, sizeof since);
}

static void why(void)
{
    ask(desk_why);
}

static void export_sheet(void)
{
    struct made made = lend_made();
    struct desk_exported exported = desk_export(made.from, made.n, made.out, made.room);

    give_word(exported.number);
    give_word(exported.block);
    give_word(exported.position);
    give_long(exported.bytes);
    give_made();
}

static void import_text(void)
{
    struct made made = lend_made();
    struct desk_imported imported = desk_import(made.from, made.n, made.out, made.room);

    give_word(imported.number);
    give_long(imported.record);
    give_long(imported.bytes);
    give_made();
}

/* The same call so many bytes before the end of memory: no word of the block lies at a word's place. */
static bool check_before(const uint8_t *block, size_t n, uint32_t number, size_t bytes)
{
    uint8_t *at = lend_out(n + bytes, CANARY_BYTE);
    bool checks;

    memcpy(at, block, n);
    keep(&out_area);
    checks = desk_check(at, n, number);
    same(&out_area);
    return checks;
}

static void check(void)
{
    size_t n = count(MOST_BYTES - 3);
    uint32_t number = word();
    uint8_t *block = lend_sheet(n);
    bool checks = desk_check(block, n, number);

    same(&sheet_area);
    for (size_t bytes = 1; bytes < 4; bytes++)
        if (check_before(block, n, number, bytes) != checks)
            fail("desk_check depends on where the block lies");
    give_word(checks);
    give_bytes(block, n);
}

static void run(void)
{
    size_t n = count(MOST_POSTS);
    uint32_t stamp = word();
    size_t k = count(MOST_ENTRIES);
    struct desk_post *row = lend_unwritten(&row_area, n);
    uint32_t *kinds = lend_words(&kinds_area, n);
    struct desk_told told = desk_start(row, n, kinds, n, stamp);

    same(&kinds_area);
    give_told(told);
    for (size_t i = 0; i < k; i++) {
        uint32_t number = word(), place = word(), at = word();

        told = desk_event(row, n, told.head, number, place, at);
        give_told(told);
    }
}

/* ---- the same on two tracks */

static void give_both_rows(void)
{
    give_lent(&row_area);
    give_lent(&second_row_area);
}

static void give_both_told(struct desk_told told)
{
    give_word(told.answer);
    give_head(told.head);
    give_both_rows();
}

static void start_tracks(void)
{
    size_t n = count(MOST_POSTS), m = count(MOST_POSTS), k = count(MOST_POSTS), j = count(MOST_POSTS);
    uint32_t circuit = word(), stamp = word();
    struct desk_post *first = lend_row(&row_area, n), *second = lend_row(&second_row_area, m);
    uint32_t *kinds = lend_words(&kinds_area, k), *others = lend_words(&second_kinds_area, j);

    give_both_told(desk_start_tracks(first, n, second, m, kinds, k, others, j, circuit, stamp));
    same(&kinds_area);
    same(&second_kinds_area);
}

static void valid_tracks(void)
{
    size_t n = count(MOST_POSTS), m = count(MOST_POSTS);
    uint32_t circuit = word();
    struct desk_head head = take_head();
    struct desk_post *first = lend_row(&row_area, n), *second = lend_row(&second_row_area, m);

    give_word(desk_valid_tracks(first, n, second, m, circuit, head));
    give_both_rows();
}

static void event_tracks(void)
{
    size_t n = count(MOST_POSTS), m = count(MOST_POSTS);
    uint32_t circuit = word();
    struct desk_head head = take_head();
    uint32_t track = word(), number = word(), place = word(), stamp = word();
    struct desk_post *first = lend_row(&row_area, n), *second = lend_row(&second_row_area, m);

    give_both_told(desk_event_tracks(first, n, second, m, circuit, head, track, number, place, stamp));
}

static void run_tracks(void)
{
    size_t n = count(MOST_POSTS), m = count(MOST_POSTS);
    uint32_t circuit = word(), stamp = word();
    size_t k = count(MOST_ENTRIES);
    struct desk_post *first = lend_unwritten(&row_area, n), *second = lend_unwritten(&second_row_area, m);
    uint32_t *kinds = lend_words(&kinds_area, n), *others = lend_words(&second_kinds_area, m);
    struct desk_told told = desk_start_tracks(first, n, second, m, kinds, n, others, m, circuit, stamp);

    same(&kinds_area);
    same(&second_kinds_area);
    give_both_told(told);
    for (size_t i = 0; i < k; i++) {
        uint32_t track = word(), number = word(), place = word(), at = word();

        told = desk_event_tracks(first, n, second, m, circuit, told.head, track, number, place, at);
        give_both_told(told);
    }
}

static void read_tracks(void)
{
    size_t n = count(MOST_BYTES), k = count(MOST_WORDS), m = count(MOST_ENTRIES), t = count(MOST_ENTRIES);
    uint32_t fill = word();
    uint8_t *sheet = lend_sheet(n);
    uint32_t *table = lend_filled(&kinds_area, k, fill), *tracks = lend_filled(&tracks_area, t, fill);
    desk_entry *entries = lend_entries(m, fill);
    struct desk_verdict verdict = desk_test_tracks(sheet, n);
    struct desk_found_tracks found = desk_read_tracks(sheet, n, table, k, entries, m, tracks, t);

    agree(sheet, n, verdict);
    same(&sheet_area);
    give(&found, sizeof found);
    give(&verdict, sizeof verdict);
    give_lent(&kinds_area);
    give_lent(&entries_area);
    give_lent(&tracks_area);
}

static void write_tracks(void)
{
    uint32_t form = word();
    size_t k = count(MOST_WORDS);
    uint32_t stamp = word();
    size_t m = count(MOST_ENTRIES), t = count(MOST_ENTRIES), room = count(MOST_BYTES);
    uint32_t fill = word();
    uint32_t *table = lend_words(&kinds_area, k);
    const desk_entry *entries = (const desk_entry *)lend_words(&entries_area, 4 * m);
    uint32_t *tracks = lend_words(&tracks_area, t);
    uint8_t *out = lend_out(room, fill);

    give_word(desk_write_tracks(form, table, k, stamp, entries, m, tracks, t, out, room));
    same(&kinds_area);
    same(&entries_area);
    same(&tracks_area);
    canary(&out_area);
    give_bytes(out, room);
}

static void work_tracks(void)
{
    struct made made = lend_made();
    struct desk_worked_tracks worked = desk_work_tracks(made.from, made.n, made.out, made.room);

    few_records(&worked.first);
    few_records(&worked.second);
    give_word(worked.number);
    give_word(worked.block);
    give_word(worked.position);
    give_word(worked.tracks);
    give_word((uint32_t)worked.first.n);
    give_word((uint32_t)worked.second.n);
    give_head(worked.head);
    give_records(&worked.first);
    give_records(&worked.second);
    give_made();
}

static void why_tracks(void)
{
    ask(desk_why_tracks);
}

int main(int words, char **word_at)
{
    static void (*const calls[])(void) = {start, valid, event, read_sheet, write_sheet, work, run, why,
                                          export_sheet, import_text, check, start_tracks, valid_tracks,
                                          event_tracks, run_tracks, read_tracks, write_tracks, work_tracks,
                                          why_tracks};

    make_all();
    if (words == 2 && strcmp(word_at[1], "--guards") == 0)
        return guards();
    while (more()) {
        uint32_t call = word();

        if (call < 1 || call > sizeof calls / sizeof calls[0])
            fail("no such call");
        calls[call - 1]();
    }
    flush();
    return 0;
}
