/*
 * Exports the sheet on standard input, imports the text again, and compares the bytes; then the same text with a field
 * quoted, with no last line end, and wrong in its last record. Prints the text. Says what is wrong and ends with 1 if
 * an answer is another than the one expected.
 */
#include <stdio.h>
#include <string.h>

#include "desk.h"

static uint8_t sheet[DESK_SHEET], again[DESK_SHEET], text[DESK_TEXT + 2];
static size_t sheet_bytes;
static unsigned wrong;

static void expect(const char *which, const uint8_t *from, size_t n, uint32_t number, uint64_t record)
{
    struct desk_imported got = desk_import(from, n, again, sizeof again);
    size_t bytes = number == 0 ? sheet_bytes : 0;

    if (got.number == number && got.record == record && got.bytes == bytes && memcmp(again, sheet, bytes) == 0)
        return;
    fprintf(stderr, "register: %s: %u %llu, %zu bytes, or another sheet\n", which, got.number,
            (unsigned long long)got.record, got.bytes);
    wrong++;
}

/* How many records a text has, each ended by CR LF. */
static uint64_t records(const uint8_t *from, size_t n)
{
    uint64_t found = 0;

    for (size_t i = 0; i < n; i++)
        found += from[i] == '\n';
    return found;
}

int main(void)
{
    struct desk_exported told;
    uint64_t last;

    sheet_bytes = fread(sheet, 1, sizeof sheet, stdin);
    told = desk_export(sheet, sheet_bytes, text, DESK_TEXT);
    if (told.number != 0) {
        fprintf(stderr, "register: the sheet is refused %u, block %u", told.number, told.block);
        if (told.number == 24)
            fprintf(stderr, ", position %u", told.position);
        fprintf(stderr, "\n");
        return 1;
    }
    fwrite(text, 1, told.bytes, stdout);
    last = records(text, told.bytes);
    expect("as exported", text, told.bytes, 0, 0);
    expect("no last line end", text, told.bytes - 2, 0, 0);
    expect("a lone CR at its end", text, told.bytes - 1, 28, last);
    expect("nothing", text, 0, 28, 1);
    memcpy(text + told.bytes, "\r\n", 2);
    expect("a blank line at its end", text, told.bytes + 2, 28, last + 1);
    memmove(text + 2, text, told.bytes);
    memcpy(text, "\"position\"", 10);
    expect("a field quoted", text, told.bytes + 2, 0, 0);
    return wrong == 0 ? 0 : 1;
}
