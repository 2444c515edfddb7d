/* The text layer beside plain C loops that do the same work: checking digits, reading u16 fields, laying u32 fields.
   Each figure is the median of several rounds, in one run, on the same memory. */
#include <stdint.h>
#include <stdio.h>
#include <stdlib.h>
#include <string.h>
#include <time.h>

size_t probe_line(const uint8_t *line, size_t len);
uint32_t probe_sum(const uint8_t *line, size_t len, uint32_t fields);
void probe_lay(uint8_t *out, size_t len, uint32_t fields);

enum { DIGITS = 20056, ROUNDS = 31, TURNS = 200 };

static uint8_t line[DIGITS + 1], out[DIGITS];
static volatile uint64_t sink;

/* The plain loops. noinline: a call each, as the probes are. */
__attribute__((noinline)) static size_t c_line(const uint8_t *s, size_t n)
{
    if (n % 2 == 0 || n - 1 > 20190 || s[n - 1] != '\n')
        return 0;
    for (size_t i = 0; i < n - 1; i++)
        if (!((s[i] >= '0' && s[i] <= '9') || (s[i] >= 'a' && s[i] <= 'f')))
            return 0;
    return (n - 1) / 2;
}

static inline unsigned nibble(uint8_t d) { return d < 'a' ? d - '0' : d - 'a' + 10; }

__attribute__((noinline)) static uint32_t c_sum(const uint8_t *s, size_t n, uint32_t fields)
{
    uint32_t sum = 0;
    for (uint32_t i = 0; i < fields; i++) {
        size_t at = (size_t)i * 4;
        if (at + 4 > n)
            return sum;
        sum += nibble(s[at]) << 12 | nibble(s[at + 1]) << 8 | nibble(s[at + 2]) << 4 | nibble(s[at + 3]);
    }
    return sum;
}

__attribute__((noinline)) static void c_lay(uint8_t *s, size_t n, uint32_t fields)
{
    static const char digit[] = "0123456789abcdef";
    if (n / 8 < fields)
        return;
    for (uint32_t i = 0; i < fields; i++)
        for (int k = 0; k < 8; k++)
            s[(size_t)i * 8 + k] = digit[(fields - i) >> (28 - 4 * k) & 15];
}

static double now(void)
{
    struct timespec t;
    clock_gettime(CLOCK_MONOTONIC, &t);
    return t.tv_sec * 1e9 + t.tv_nsec;
}

static int by_value(const void *a, const void *b)
{
    double x = *(const double *)a, y = *(const double *)b;
    return (x > y) - (x < y);
}

static void work(int which, int plain)
{
    switch (which) {
    case 0: sink += plain ? c_line(line, sizeof line) : probe_line(line, sizeof line); break;
    case 1: sink += plain ? c_sum(line, sizeof line, DIGITS / 4) : probe_sum(line, sizeof line, DIGITS / 4); break;
    default: (plain ? c_lay : probe_lay)(out, sizeof out, DIGITS / 8); sink += out[7];
    }
}

int main(void)
{
    static const char *const names[] = {"check digits", "read u16 fields", "lay u32 fields"};
    static const char digit[] = "0123456789abcdef";
    for (size_t i = 0; i < DIGITS; i++)
        line[i] = digit[(i * 2654435761u >> 13) & 15];
    line[DIGITS] = '\n';
    if (c_line(line, sizeof line) != probe_line(line, sizeof line) || c_sum(line, sizeof line, DIGITS / 4) != probe_sum(line, sizeof line, DIGITS / 4))
        return fprintf(stderr, "the two answers differ\n"), 1;
    printf("%-18s %14s %14s %8s %10s\n", "work", "Rattle ns/byte", "C ns/byte", "ratio", "spread");
    for (int w = 0; w < 3; w++) {
        double t[2][ROUNDS];
        for (int r = 0; r < ROUNDS; r++)
            for (int plain = 0; plain < 2; plain++) {
                double from = now();
                for (int k = 0; k < TURNS; k++)
                    work(w, plain);
                t[plain][r] = (now() - from) / TURNS / (DIGITS / 2);
            }
        for (int plain = 0; plain < 2; plain++)
            qsort(t[plain], ROUNDS, sizeof(double), by_value);
        printf("%-18s %14.3f %14.3f %8.2f %4.2f..%4.2f\n", names[w], t[0][ROUNDS / 2], t[1][ROUNDS / 2],
               t[0][ROUNDS / 2] / t[1][ROUNDS / 2], t[0][ROUNDS / 4] / t[1][ROUNDS / 2], t[0][ROUNDS * 3 / 4] / t[1][ROUNDS / 2]);
    }
    return 0;
}
