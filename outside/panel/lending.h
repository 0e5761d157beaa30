/*
 * What the server of the calls stands on: the two streams, and memory to lend.
 *
 * Everything lent ends where memory ends: the page behind it may not be touched. The bytes before it are a canary.
 * What is lent to be read only is compared with what it was.
 */
#ifndef LENDING_H
#define LENDING_H

#include <stdbool.h>
#include <stdint.h>
#include <stdio.h>
#include <stdlib.h>
#include <string.h>
#include <sys/mman.h>
#include <sys/wait.h>
#include <unistd.h>

enum {
    MOST_POSTS = 64, MOST_WORDS = 256, MOST_ENTRIES = 4096, MOST_BYTES = 1 << 21,
    CANARY = 64, CANARY_BYTE = 0xA5,
    GUARD = 65536 /* no machine's pages are larger */
};

static _Noreturn void fail(const char *why)
{
    fprintf(stderr, "server: %s\n", why);
    exit(3);
}

/* ---- the two streams */

static uint8_t input[1 << 20], output[1 << 20];
static size_t input_at, input_end, output_end;

static void flush(void)
{
    size_t done = 0;

    while (done < output_end) {
        ssize_t n = write(STDOUT_FILENO, output + done, output_end - done);

        if (n <= 0)
            fail("the output is closed");
        done += (size_t)n;
    }
    output_end = 0;
}

/* Whether there is more input. Whoever waits for replies gets them before the server waits for requests. */
static bool more(void)
{
    if (input_at == input_end) {
        ssize_t n;

        flush();
        n = read(STDIN_FILENO, input, sizeof input);
        if (n < 0)
            fail("the input cannot be read");
        input_at = 0;
        input_end = (size_t)n;
    }
    return input_at < input_end;
}

static void take(void *to, size_t bytes)
{
    uint8_t *at = to;

    while (bytes > 0) {
        size_t n;

        if (!more())
            fail("a request is cut short");
        n = input_end - input_at < bytes ? input_end - input_at : bytes;
        memcpy(at, input + input_at, n);
        input_at += n;
        at += n;
        bytes -= n;
    }
}

static uint32_t word(void)
{
    uint32_t w;

    take(&w, sizeof w);
    return w;
}

static size_t count(size_t most)
{
    uint32_t w = word();

    if (w > most)
        fail("a request is larger than the server's room");
    return w;
}

static void give(const void *from, size_t bytes)
{
    const uint8_t *at = from;

    while (bytes > 0) {
        size_t room = sizeof output - output_end, n = room < bytes ? room : bytes;

        memcpy(output + output_end, at, n);
        output_end += n;
        at += n;
        bytes -= n;
        if (output_end == sizeof output)
            flush();
    }
}

static void give_word(uint32_t w)
{
    give(&w, sizeof w);
}

static void give_long(uint64_t l)
{
    give(&l, sizeof l);
}

static size_t padding(size_t bytes)
{
    return (4 - bytes % 4) % 4;
}

static void take_bytes(uint8_t *to, size_t bytes)
{
    uint32_t pad;

    take(to, bytes);
    take(&pad, padding(bytes));
}

static void give_bytes(const uint8_t *from, size_t bytes)
{
    static const uint32_t zeros;

    give(from, bytes);
    give(&zeros, padding(bytes));
}

/* ---- what is lent */

struct area {
    uint8_t *end;          /* where memory ends */
    uint8_t *at;           /* what is lent now */
    size_t bytes;
    uint8_t before[MOST_BYTES]; /* what it held, where it is lent to be read only */
};

/* Of two tracks, the second row, the second table and the track of each entry have their own. */
static struct area row_area, second_row_area, kinds_area, second_kinds_area, entries_area, tracks_area, sheet_area,
    out_area;

/* The data ends at a boundary of GUARD bytes, and GUARD bytes that may not be touched follow. */
static void make(struct area *a)
{
    size_t whole = 2 * MOST_BYTES + 3 * (size_t)GUARD;
    uint8_t *base = mmap(NULL, whole, PROT_READ | PROT_WRITE, MAP_PRIVATE | MAP_ANONYMOUS, -1, 0);

    if (base == MAP_FAILED)
        fail("no memory");
    a->end = base + 2 * MOST_BYTES + GUARD;
    a->end -= (uintptr_t)a->end % GUARD;
    if (mprotect(a->end, GUARD, PROT_NONE) != 0)
        fail("no guard page");
}

static void *lend(struct area *a, size_t bytes)
{
    a->at = a->end - bytes;
    a->bytes = bytes;
    memset(a->at - CANARY, CANARY_BYTE, CANARY);
    return a->at;
}

static void keep(struct area *a)
{
    memcpy(a->before, a->at, a->bytes);
}

static void canary(const struct area *a)
{
    for (const uint8_t *p = a->at - CANARY; p < a->at; p++)
        if (*p != CANARY_BYTE)
            fail("a call wrote before what was lent");
}

static void same(const struct area *a)
{
    canary(a);
    if (memcmp(a->before, a->at, a->bytes) != 0)
        fail("a call wrote to what was lent to be read");
}

/* So many words that follow in the request, to be read only. */
static uint32_t *lend_words(struct area *a, size_t k)
{
    uint32_t *words = lend(a, k * sizeof *words);

    take(words, k * sizeof *words);
    keep(a);
    return words;
}

/* So many words of which each holds the fill. */
static uint32_t *lend_filled(struct area *a, size_t k, uint32_t fill)
{
    uint32_t *words = lend(a, k * sizeof *words);

    for (size_t i = 0; i < k; i++)
        words[i] = fill;
    return words;
}

static uint8_t *lend_sheet(size_t n)
{
    uint8_t *sheet = lend(&sheet_area, n);

    take_bytes(sheet, n);
    keep(&sheet_area);
    return sheet;
}

static uint8_t *lend_out(size_t room, uint32_t fill)
{
    uint8_t *out = lend(&out_area, room);

    memset(out, (int)fill, room);
    return out;
}

static void make_all(void)
{
    make(&row_area);
    make(&second_row_area);
    make(&kinds_area);
    make(&second_kinds_area);
    make(&entries_area);
    make(&tracks_area);
    make(&sheet_area);
    make(&out_area);
}

/* ---- the guards themselves */

static void touch_behind(void) { *(volatile uint8_t *)(row_area.at + row_area.bytes) = 0; }
static void look_behind(void) { (void)*(volatile uint8_t *)(row_area.at + row_area.bytes); }
static void touch_before(void) { row_area.at[-1] = 0; canary(&row_area); }
static void touch_lent(void) { row_area.at[0] ^= 1; same(&row_area); }

/* Whether a process that does this is killed, or ends by fail(). */
static bool noticed(void (*does)(void))
{
    int status;
    pid_t child = fork();

    if (child == 0) {
        if (freopen("/dev/null", "w", stderr) == NULL)
            _exit(0);
        does();
        _exit(0);
    }
    if (child < 0 || waitpid(child, &status, 0) != child)
        fail("no process");
    return !WIFEXITED(status) || WEXITSTATUS(status) == 3;
}

static int guards(void)
{
    lend(&row_area, 88);
    keep(&row_area);
    if (noticed(flush) || !noticed(touch_behind) || !noticed(look_behind) || !noticed(touch_before) ||
        !noticed(touch_lent))
        fail("a guard does not hold");
    return 0;
}

#endif
