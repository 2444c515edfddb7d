/* Calls of the library from C, on memory that is guarded on both sides: it ends with 0 where each keeps to its promise, and where each
   thing that is compared was noticed when it was made wrong. */
#include <signal.h>
#include <stdio.h>
#include <stdlib.h>
#include <string.h>
#include <sys/wait.h>
#include <unistd.h>

#include "boundary.h"

#define REFUSALS 17

static unsigned calls, refused, noticed, failures;
static unsigned reached[REFUSALS + 1];

/* Whether the slice and the pages around it hold what they must. */
static int holds(const struct lent *l, const struct slice *s)
{
    uint8_t *wanted = malloc(l->open_bytes);
    if (wanted == NULL)
        exit(2);
    memset(wanted, 0xa5, l->open_bytes);
    if (l->at != NULL && l->bytes != 0) {
        uint8_t *at = wanted + ((const uint8_t *)l->at - l->open);
        memcpy(at, s->elements, l->bytes);
        if (s->after_bytes != 0)
            memcpy(at + s->after_at, s->after, s->after_bytes);
    }
    int same = memcmp(wanted, l->open, l->open_bytes) == 0;
    free(wanted);
    return same;
}

/* Whether the call answers and leaves what it must. On purpose the expected answer is `off` by so much, and a byte in the pages
   of slice `touch` - 1 differs after the call. */
static int keeps(const struct call *c, enum side side, int64_t off, size_t touch)
{
    struct lent l[MOST_SLICES];
    for (size_t i = 0; i < c->slice_count; i++)
        l[i] = lend(c->slices[i].elements, c->slices[i].count, c->slices[i].width, side);
    int64_t answer = c->make(l, c->numbers);
    int good = answer == c->answer + off;
    if (touch != 0)
        l[touch - 1].open[touch * 977 % l[touch - 1].open_bytes] ^= 1;
    for (size_t i = 0; i < c->slice_count; i++) {
        good &= holds(&l[i], &c->slices[i]);
        take_back(&l[i]);
    }
    if (!good && off == 0 && touch == 0)
        fprintf(stderr, "%s: answered %lld where %lld is expected, or memory differs\n", c->name, (long long)answer, (long long)c->answer);
    return good;
}

void expect(struct call c)
{
    for (enum side side = AT_START; side <= AT_END; side++) {
        failures += !keeps(&c, side, 0, 0);
        unsigned missed = keeps(&c, side, 1, 0) + keeps(&c, side, -2 * c.answer - 1, 0);
        noticed += 2;
        for (size_t i = 1; i <= c.slice_count; i++, noticed++)
            missed += keeps(&c, side, 0, i);
        if (missed != 0)
            fprintf(stderr, "%s: something wrong is not noticed\n", c.name);
        failures += missed;
    }
    calls++;
    if (c.answer < 0) {
        refused++;
        reached[-c.answer]++;
    }
}

/* Whether a program that reads or writes one byte beside a slice is stopped. */
static int stopped(enum side side, size_t count, int by, int write)
{
    fflush(NULL);
    pid_t child = fork();
    if (child == 0) {
        signal(SIGSEGV, SIG_DFL);
        struct lent l = lend("12345678", count, 1, side);
        volatile uint8_t *at = (uint8_t *)l.at + by;
        volatile uint8_t byte = 0;
        if (write)
            *at = byte;
        else
            byte = *at;
        _exit(0);
    }
    int status = 0;
    return child > 0 && waitpid(child, &status, 0) == child && WIFSIGNALED(status) && WTERMSIG(status) == SIGSEGV;
}

static void guards(void)
{
    for (int write = 0; write <= 1; write++)
        for (size_t count = 0; count <= 8; count += 4) {
            failures += !stopped(AT_END, count, (int)count, write);
            failures += !stopped(AT_START, count, -1, write);
            if (count != 0)
                failures += stopped(AT_END, count, (int)count - 1, write) || stopped(AT_START, count, 0, write);
        }
    if (failures != 0)
        fprintf(stderr, "a guarding page does not guard\n");
}

int main(void)
{
    guards();
    line_calls();
    write_calls();
    record_calls();
    resume_calls();
    for (int n = 1; n <= REFUSALS; n++)
        if (reached[n] == 0) {
            fprintf(stderr, "refusal %d is not reached\n", n);
            failures++;
        }
    if (failures != 0) {
        fprintf(stderr, "%u failed\n", failures);
        return 1;
    }
    printf("%u calls, each against both guards; %u refused, by every number from 1 to %d; %u things made wrong on purpose, all noticed\n", calls, refused, REFUSALS, noticed);
    return 0;
}
