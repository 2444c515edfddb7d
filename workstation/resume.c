/* resume REFERENCE UNIT FOUND: prints what is kept of a listing that was stopped, then what is missing of it. */
#include "unit.h"

#include <stdlib.h>
#include <string.h>

/* More of a kept line than any line of a listing has. */
#define NEAR (LAMPBUCKLE_LISTED + 1)

static struct source reference, file, found;
static struct unit unit;
static uint8_t first[NEAR], last[NEAR];

/* What of the found file is kept. It is read to its end, or until nothing more is kept. */
static void scan(size_t keep[LAMPBUCKLE_KEEP])
{
    while (read_on(&found) != 0) {
        int64_t done = lampbuckle_keep(found.bytes, found.end, keep, LAMPBUCKLE_KEEP);
        found.at = found.end;
        if (done != 0)
            return;
    }
}

/* The front of a kept line that has `length` bytes from place `at` on. */
static size_t read_near(uint8_t *line, size_t at, size_t length)
{
    size_t wanted = length < NEAR ? length : NEAR;
    if (fseeko(found.file, (off_t)at, SEEK_SET) != 0 || fread(line, 1, wanted, found.file) != wanted)
        fail(found.name);
    return wanted;
}

static void print_kept(size_t kept)
{
    if (fseeko(found.file, 0, SEEK_SET) != 0)
        fail(found.name);
    found.at = found.end = 0;
    while (kept != 0 && read_on(&found) != 0) {
        size_t n = found.end < kept ? found.end : kept;
        print(found.bytes, n);
        kept -= n;
        found.at = found.end;
    }
}

/* Passes over so many record lines: 0 where they run out. */
static int pass_over(size_t lines)
{
    for (;;) {
        int64_t n = lampbuckle_pass(file.bytes + file.at, file.end - file.at, &lines, 1);
        file.at += (size_t)n;
        if (lines == 0)
            return 1;
        if (read_on(&file) == 0)
            return 0;
    }
}

/* Prints all behind the first line of the listing, or all behind a record. */
static void add_rest(uint32_t state[LAMPBUCKLE_STATE])
{
    if (unit.alone)
        return;
    if (unit.refusal != 0)
        print_refused(0, unit.refusal);
    else if (pass_over(state[0]))
        list_records(&unit, &file, state);
    else
        print_refused(state[0], LAMPBUCKLE_MISSING);
}

int main(int argc, char **argv)
{
    if (argc != 4) {
        fprintf(stderr, "usage: %s REFERENCE UNIT FOUND\n", argv[0]);
        return 2;
    }
    open_source(&reference, argv[1]);
    open_source(&file, argv[2]);
    open_source(&found, argv[3]);
    read_front(&unit, &reference, &file);
    size_t keep[LAMPBUCKLE_KEEP] = {0};
    scan(keep);
    size_t kept = keep[LAMPBUCKLE_KEEP_KEPT];
    size_t first_length = read_near(first, 0, keep[LAMPBUCKLE_KEEP_FIRST]);
    size_t last_length = read_near(last, keep[LAMPBUCKLE_KEEP_LAST], kept - keep[LAMPBUCKLE_KEEP_LAST]);
    /* where a line in front of the records is refused, no record and no symbol is there */
    static const uint32_t none[LAMPBUCKLE_SUBSEQUENCES];
    uint32_t records = unit.refusal != 0 ? 0 : unit.numbers[LAMPBUCKLE_UNIT_RECORDS];
    uint32_t state[LAMPBUCKLE_STATE] = {0};
    int64_t place = lampbuckle_place(unit.first, unit.first_length, records, unit.refusal != 0 ? none : unit.counts,
        LAMPBUCKLE_SUBSEQUENCES, first, first_length, last, last_length, state, LAMPBUCKLE_STATE);
    if (place < 0) {
        print_refused(LAMPBUCKLE_NO_RECORD, (uint32_t)-place);
        return finish();
    }
    print_kept(kept);
    if (place == LAMPBUCKLE_AFRESH)
        print(unit.first, unit.first_length);
    if (place != LAMPBUCKLE_OVER)
        add_rest(state);
    return finish();
}
