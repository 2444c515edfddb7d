#include "unit.h"

#include <stdlib.h>
#include <string.h>

void fail(const char *name)
{
    perror(name);
    exit(EXIT_FAILURE);
}

void open_source(struct source *s, const char *name)
{
    s->name = name;
    s->at = s->end = 0;
    s->file = fopen(name, "rb");
    if (s->file == NULL)
        fail(name);
}

size_t read_on(struct source *s)
{
    memmove(s->bytes, s->bytes + s->at, s->end - s->at);
    s->end -= s->at;
    s->at = 0;
    size_t n = fread(s->bytes + s->end, 1, sizeof s->bytes - s->end, s->file);
    if (ferror(s->file))
        fail(s->name);
    s->end += n;
    return n;
}

size_t next_line(struct source *s, const uint8_t **line)
{
    for (;;) {
        size_t most = s->end - s->at < LAMPBUCKLE_LINE ? s->end - s->at : LAMPBUCKLE_LINE;
        const uint8_t *end = memchr(s->bytes + s->at, '\n', most);
        if (end == NULL && most < LAMPBUCKLE_LINE && read_on(s) != 0)
            continue;
        *line = s->bytes + s->at;
        size_t length = end != NULL ? (size_t)(end - *line) + 1 : most;
        s->at += length;
        return length;
    }
}

/* A line in front of the records is refused: what the listing's first line is. */
static void refuse_alone(struct unit *u, uint32_t refusal)
{
    u->refusal = refusal;
    u->alone = 1;
    u->first_length = (size_t)lampbuckle_write_refused(0, refusal, u->first, sizeof u->first);
}

static int64_t read_reference(struct unit *u, struct source *reference)
{
    const uint8_t *line;
    size_t length;
    while ((length = next_line(reference, &line)) != 0) {
        int64_t bases = lampbuckle_reference_line(line, length, u->reference, sizeof u->reference, u->bases);
        if (bases < 0)
            return bases;
        u->bases = (size_t)bases;
    }
    return 0;
}

static int64_t read_pairs(struct unit *u, struct source *file)
{
    const uint8_t *line;
    for (uint32_t s = 0; s < LAMPBUCKLE_SUBSEQUENCES; s++) {
        size_t length = next_line(file, &line);
        if (length == 0)
            return -LAMPBUCKLE_MISSING;
        int64_t count = lampbuckle_pair_line(line, length, s, u->symbols, LAMPBUCKLE_TABLE, u->counts, LAMPBUCKLE_SUBSEQUENCES);
        if (count < 0)
            return count;
    }
    return 0;
}

void read_front(struct unit *u, struct source *reference, struct source *file)
{
    int64_t answer = read_reference(u, reference);
    if (answer < 0) {
        refuse_alone(u, (uint32_t)-answer);
        return;
    }
    const uint8_t *line;
    size_t length = next_line(file, &line);
    answer = length == 0 ? -LAMPBUCKLE_MISSING : lampbuckle_unit_line(line, length, u->numbers, LAMPBUCKLE_UNIT);
    if (answer < 0) {
        refuse_alone(u, (uint32_t)-answer);
        return;
    }
    u->first_length = (size_t)lampbuckle_write_unit(u->numbers, LAMPBUCKLE_UNIT, u->first, sizeof u->first);
    answer = read_pairs(u, file);
    if (answer < 0)
        u->refusal = (uint32_t)-answer;
}

/* The last line: bytes behind the last record line, or pair symbols left over, are refused by 14. */
static void print_last(const struct unit *u, struct source *file, const uint32_t state[LAMPBUCKLE_STATE])
{
    uint32_t records = u->numbers[LAMPBUCKLE_UNIT_RECORDS];
    const uint8_t *line;
    if (next_line(file, &line) != 0 || memcmp(state + 1, u->counts, sizeof u->counts) != 0) {
        print_refused(records, LAMPBUCKLE_MISSING);
        return;
    }
    uint8_t out[LAMPBUCKLE_LISTED];
    print(out, (size_t)lampbuckle_write_done(records, out, sizeof out));
}

void list_records(const struct unit *u, struct source *file, uint32_t state[LAMPBUCKLE_STATE])
{
    static uint8_t out[LAMPBUCKLE_LISTED];
    while (state[0] < u->numbers[LAMPBUCKLE_UNIT_RECORDS]) {
        const uint8_t *line;
        size_t length = next_line(file, &line);
        int64_t answer = -LAMPBUCKLE_MISSING;
        if (length != 0)
            answer = lampbuckle_record(u->numbers, LAMPBUCKLE_UNIT, u->reference, u->bases, u->symbols, LAMPBUCKLE_TABLE,
                u->counts, LAMPBUCKLE_SUBSEQUENCES, state, LAMPBUCKLE_STATE, line, length, out, sizeof out);
        if (answer < 0) {
            print_refused(state[0], (uint32_t)-answer);
            return;
        }
        print(out, (size_t)answer);
    }
    print_last(u, file, state);
}

void print_refused(uint32_t number, uint32_t refusal)
{
    uint8_t out[LAMPBUCKLE_LISTED];
    print(out, (size_t)lampbuckle_write_refused(number, refusal, out, sizeof out));
}

void print(const uint8_t *bytes, size_t length)
{
    fwrite(bytes, 1, length, stdout);
}

int finish(void)
{
    if (fflush(stdout) != 0 || ferror(stdout))
        fail("standard output");
    return EXIT_SUCCESS;
}
