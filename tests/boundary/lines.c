/* The lines in front of the records. */
#include <string.h>

#include "boundary.h"

/* A line of more digits than may be, and one of just so many. */
static char line[LAMPBUCKLE_LINE + 2];

static struct slice text(const char *t)
{
    return (struct slice){t, strlen(t), 1, NULL, 0, 0};
}

/* ---- the unit line */

static int64_t unit(const struct lent *l, const uint64_t *numbers)
{
    (void)numbers;
    return lampbuckle_unit_line(l[0].at, l[0].count, l[1].at, l[1].count);
}

static const uint32_t nine[] = {11, 12, 13, 14, 15, 16, 17, 18, 19};

static void unit_refused(const char *name, const char *t, int64_t answer)
{
    expect((struct call){name, unit, {0}, {text(t), {nine, LAMPBUCKLE_UNIT, sizeof *nine, NULL, 0, 0}}, 2, answer});
}

static void unit_accepted(const char *name, const char *t, const uint32_t *numbers)
{
    struct slice into = {nine, LAMPBUCKLE_UNIT, sizeof *nine, NULL, 0, 0};
    expect((struct call){name, unit, {0}, {text(t), becomes(into, numbers, 0, LAMPBUCKLE_UNIT * sizeof *numbers)}, 2, (int64_t)strlen(t)});
}

static void unit_shapes(void)
{
    static const char good[] = "01030001000200000064000000640000006d0001\n";
    expect((struct call){"a unit of 7 numbers", unit, {0}, {BYTES(good), {nine, 7, sizeof *nine, NULL, 0, 0}}, 2, -LAMPBUCKLE_UNIT_OUT});
    expect((struct call){"a unit of 9 numbers", unit, {0}, {BYTES(good), ARRAY(nine)}, 2, -LAMPBUCKLE_UNIT_OUT});
    expect((struct call){"no unit", unit, {0}, {BYTES(good), NOTHING}, 2, -LAMPBUCKLE_UNIT_OUT});
    expect((struct call){"no unit and no line", unit, {0}, {NOTHING, NOTHING}, 2, -LAMPBUCKLE_UNIT_OUT});
    expect((struct call){"no line", unit, {0}, {NOTHING, {nine, LAMPBUCKLE_UNIT, sizeof *nine, NULL, 0, 0}}, 2, -LAMPBUCKLE_MALFORMED});
}

static void unit_lines(void)
{
    unit_shapes();
    unit_accepted("document 01's unit", "01030001000200000064000000640000006d0001\n", (const uint32_t[]){3, 0, 1, 2, 100, 100, 109, 1});
    unit_accepted("the largest values", "01060102ffffffffffffffffffffffffffff0400\n", (const uint32_t[]){6, 1, 2, 65535, 4294967295, 4294967295, 4294967295, 1024});
    unit_refused("no 0A", "01030001000200000064000000640000006d0001", -LAMPBUCKLE_MALFORMED);
    unit_refused("an odd digit", "01030001000200000064000000640000006d000\n", -LAMPBUCKLE_MALFORMED);
    unit_refused("an upper-case digit", "01030001000200000064000000640000006D0001\n", -LAMPBUCKLE_MALFORMED);
    unit_refused("a bare 0A", "\n", -LAMPBUCKLE_MISFRAMED);
    unit_refused("another kind", "02030001000200000064000000640000006d0001\n", -LAMPBUCKLE_MISFRAMED);
    unit_refused("cut in its last field", "01030001000200000064000000640000006d00\n", -LAMPBUCKLE_MISFRAMED);
    unit_refused("a byte left over", "01030001000200000064000000640000006d000100\n", -LAMPBUCKLE_MISFRAMED);
    unit_refused("class 0", "01000001000200000064000000640000006d0001\n", -LAMPBUCKLE_UNIT_OUT);
    unit_refused("class 7", "01070001000200000064000000640000006d0001\n", -LAMPBUCKLE_UNIT_OUT);
    unit_refused("class 9 and nothing behind it", "0109\n", -LAMPBUCKLE_UNIT_OUT);
    unit_refused("alphabet 2", "01030201000200000064000000640000006d0001\n", -LAMPBUCKLE_UNIT_OUT);
    unit_refused("no segment", "01030000000200000064000000640000006d0001\n", -LAMPBUCKLE_UNIT_OUT);
    unit_refused("three segments", "01030003000200000064000000640000006d0001\n", -LAMPBUCKLE_UNIT_OUT);
    unit_refused("HM with one segment", "01050001000200000064000000640000006d0001\n", -LAMPBUCKLE_UNIT_OUT);
    unit_refused("AU end below AU start", "010300010002000000640000006e0000006d0001\n", -LAMPBUCKLE_UNIT_OUT);
    unit_refused("1,025 records", "01030001000200000064000000640000006d0401\n", -LAMPBUCKLE_UNIT_OUT);
    memset(line, '0', sizeof line);
    memcpy(line, "01", 2);
    line[LAMPBUCKLE_LINE - 1] = '\n';
    line[LAMPBUCKLE_LINE] = 0;
    unit_refused("the longest line", line, -LAMPBUCKLE_UNIT_OUT);
    memcpy(line + LAMPBUCKLE_LINE - 1, "00\n", 3);
    expect((struct call){"a line two digits too long", unit, {0}, {{line, LAMPBUCKLE_LINE + 2, 1, NULL, 0, 0}, {nine, LAMPBUCKLE_UNIT, sizeof *nine, NULL, 0, 0}}, 2, -LAMPBUCKLE_MALFORMED});
}

/* ---- a pair line */

static uint32_t table[LAMPBUCKLE_TABLE + 1];
static const uint32_t old[] = {21, 22, 23, 24, 25, 26, 27, 28, 29};

static int64_t pair(const struct lent *l, const uint64_t *numbers)
{
    return lampbuckle_pair_line(l[0].at, l[0].count, (uint32_t)numbers[0], l[1].at, l[1].count, l[2].at, l[2].count);
}

static void pair_into(const char *name, const char *t, uint32_t subsequence, size_t places, size_t counts, int64_t answer)
{
    struct slice symbols = {table, places, sizeof *table, NULL, 0, 0}, all = {old, counts, sizeof *old, NULL, 0, 0};
    expect((struct call){name, pair, {subsequence}, {text(t), symbols, all}, 3, answer});
}

static void pair_accepted(const char *name, const char *t, uint32_t subsequence, const uint32_t *values, size_t count)
{
    uint32_t number = (uint32_t)count;
    struct slice symbols = {table, LAMPBUCKLE_TABLE, sizeof *table, NULL, 0, 0}, all = {old, LAMPBUCKLE_SUBSEQUENCES, sizeof *old, NULL, 0, 0};
    symbols = becomes(symbols, values, subsequence * LAMPBUCKLE_SYMBOLS * sizeof *table, count * sizeof *values);
    all = becomes(all, &number, subsequence * sizeof *old, sizeof number);
    expect((struct call){name, pair, {subsequence}, {text(t), symbols, all}, 3, (int64_t)count});
}

static void pair_shapes(void)
{
    static const char good[] = "02000000\n";
    pair_into("symbols one too few", good, 0, LAMPBUCKLE_TABLE - 1, 8, -LAMPBUCKLE_COUNT_OUT);
    pair_into("symbols one too many", good, 0, LAMPBUCKLE_TABLE + 1, 8, -LAMPBUCKLE_COUNT_OUT);
    pair_into("seven counts", good, 0, LAMPBUCKLE_TABLE, 7, -LAMPBUCKLE_COUNT_OUT);
    pair_into("nine counts", good, 0, LAMPBUCKLE_TABLE, 9, -LAMPBUCKLE_COUNT_OUT);
    pair_into("no subsequence 8, and seven counts", good, 8, LAMPBUCKLE_TABLE, 7, -LAMPBUCKLE_COUNT_OUT);
    pair_into("no subsequence 8, and symbols too few", good, 8, 0, 8, -LAMPBUCKLE_COUNT_OUT);
    pair_into("no subsequence 8, and a malformed line", "0", 8, LAMPBUCKLE_TABLE, 8, -LAMPBUCKLE_MISFRAMED);
    pair_into("no subsequence 2^32 - 1", good, 4294967295, LAMPBUCKLE_TABLE, 8, -LAMPBUCKLE_MISFRAMED);
    struct slice symbols = {table, LAMPBUCKLE_TABLE, sizeof *table, NULL, 0, 0}, all = {old, 8, sizeof *old, NULL, 0, 0};
    expect((struct call){"no line", pair, {0}, {NOTHING, symbols, all}, 3, -LAMPBUCKLE_MALFORMED});
    expect((struct call){"no symbols", pair, {0}, {BYTES(good), NOTHING, all}, 3, -LAMPBUCKLE_COUNT_OUT});
    expect((struct call){"no counts", pair, {0}, {BYTES(good), symbols, NOTHING}, 3, -LAMPBUCKLE_COUNT_OUT});
    expect((struct call){"nothing at all", pair, {0}, {NOTHING, NOTHING, NOTHING}, 3, -LAMPBUCKLE_COUNT_OUT});
}

static void pair_lines(void)
{
    for (uint32_t i = 0; i < LAMPBUCKLE_TABLE + 1; i++)
        table[i] = 7 * i + 1;
    pair_shapes();
    pair_accepted("no symbol", "02000000\n", 0, table, 0);
    pair_accepted("three symbols of the last subsequence", "020700030000000000000101ffffffff\n", 7, (const uint32_t[]){0, 257, 4294967295}, 3);
    static char most[8 + 8 * LAMPBUCKLE_SYMBOLS + 2];
    static uint32_t values[LAMPBUCKLE_SYMBOLS];
    memset(most, '0', sizeof most - 1);
    memcpy(most, "02030400", 8);
    memcpy(most + sizeof most - 3, "9\n", 3);
    values[LAMPBUCKLE_SYMBOLS - 1] = 9;
    pair_accepted("1,024 symbols", most, 3, values, LAMPBUCKLE_SYMBOLS);
    memcpy(most, "02030401", 8);
    pair_into("a count of 1,025", most, 3, LAMPBUCKLE_TABLE, 8, -LAMPBUCKLE_COUNT_OUT);
    memcpy(most, "020303ff", 8);
    pair_into("a symbol more than the count", most, 3, LAMPBUCKLE_TABLE, 8, -LAMPBUCKLE_MISFRAMED);
    pair_into("a symbol fewer than the count", "0207000200000001\n", 7, LAMPBUCKLE_TABLE, 8, -LAMPBUCKLE_MISFRAMED);
    pair_into("another subsequence", "02010000\n", 0, LAMPBUCKLE_TABLE, 8, -LAMPBUCKLE_MISFRAMED);
    pair_into("another kind", "01000000\n", 0, LAMPBUCKLE_TABLE, 8, -LAMPBUCKLE_MISFRAMED);
    pair_into("cut in its count", "020000\n", 0, LAMPBUCKLE_TABLE, 8, -LAMPBUCKLE_MISFRAMED);
    pair_into("no 0A", "02000000", 0, LAMPBUCKLE_TABLE, 8, -LAMPBUCKLE_MALFORMED);
}

/* ---- a reference line */

static uint8_t bases[LAMPBUCKLE_REFERENCE + 1];

static int64_t reference(const struct lent *l, const uint64_t *numbers)
{
    return lampbuckle_reference_line(l[0].at, l[0].count, l[1].at, l[1].count, (size_t)numbers[0]);
}

static void reference_refused(const char *name, const char *t, size_t places, uint64_t used, int64_t answer)
{
    expect((struct call){name, reference, {used}, {text(t), {bases, places, 1, NULL, 0, 0}}, 2, answer});
}

static void reference_accepted(const char *name, const char *t, size_t places, size_t used, const void *added, size_t count)
{
    struct slice into = {bases, places, 1, NULL, 0, 0};
    expect((struct call){name, reference, {used}, {text(t), becomes(into, added, used, count)}, 2, (int64_t)(used + count)});
}

static void reference_rooms(void)
{
    static const char good[] = "070001020300010203\n";
    static const uint8_t added[] = {0, 1, 2, 3, 0, 1, 2, 3};
    reference_accepted("document 01's reference", good, LAMPBUCKLE_REFERENCE, 0, added, 8);
    reference_accepted("into its own length", good, 8, 0, added, 8);
    reference_accepted("behind others", good, LAMPBUCKLE_REFERENCE, 5, added, 8);
    reference_accepted("to the last base that may be", good, LAMPBUCKLE_REFERENCE, LAMPBUCKLE_REFERENCE - 8, added, 8);
    reference_accepted("the same, with a byte behind it", good, LAMPBUCKLE_REFERENCE + 1, LAMPBUCKLE_REFERENCE - 8, added, 8);
    reference_refused("one base too many in all", good, LAMPBUCKLE_REFERENCE + 1, LAMPBUCKLE_REFERENCE - 7, -LAMPBUCKLE_MISFRAMED);
    reference_refused("more used than lent", good, 8, 9, -LAMPBUCKLE_MISFRAMED);
    reference_refused("more used than there can be", good, LAMPBUCKLE_REFERENCE, UINT64_MAX, -LAMPBUCKLE_MISFRAMED);
    reference_refused("no room for the last base", good, 7, 0, -LAMPBUCKLE_NO_ROOM);
    reference_refused("no room at all", good, 8, 8, -LAMPBUCKLE_NO_ROOM);
    expect((struct call){"no reference", reference, {0}, {BYTES(good), NOTHING}, 2, -LAMPBUCKLE_NO_ROOM});
    expect((struct call){"no line", reference, {0}, {NOTHING, {bases, 8, 1, NULL, 0, 0}}, 2, -LAMPBUCKLE_MALFORMED});
    expect((struct call){"nothing at all", reference, {0}, {NOTHING, NOTHING}, 2, -LAMPBUCKLE_MALFORMED});
}

static void reference_lines(void)
{
    for (size_t i = 0; i < sizeof bases; i++)
        bases[i] = (uint8_t)(3 * i + 1);
    reference_rooms();
    static const uint8_t any[] = {255, 5};
    reference_accepted("any byte is taken", "07ff05\n", 16, 1, any, 2);
    reference_refused("no base", "07\n", 16, 0, -LAMPBUCKLE_MISFRAMED);
    reference_refused("another kind", "0600\n", 16, 0, -LAMPBUCKLE_MISFRAMED);
    reference_refused("a bare 0A", "\n", 16, 0, -LAMPBUCKLE_MISFRAMED);
    reference_refused("other digits", "070g\n", 16, 0, -LAMPBUCKLE_MALFORMED);
    reference_refused("no 0A", "0700", 16, 0, -LAMPBUCKLE_MALFORMED);
    static char most[2 + 2 * 1001 + 2];
    static uint8_t zeros[1000];
    memset(most, '0', sizeof most - 1);
    memcpy(most, "07", 2);
    most[2 + 2 * 1000] = '\n';
    most[2 + 2 * 1000 + 1] = 0;
    reference_accepted("1,000 bases in a line", most, LAMPBUCKLE_REFERENCE, 0, zeros, 1000);
    memcpy(most + 2 + 2 * 1000, "00\n", 4);
    reference_refused("1,001 bases in a line", most, LAMPBUCKLE_REFERENCE, 0, -LAMPBUCKLE_MISFRAMED);
}

void line_calls(void)
{
    unit_lines();
    pair_lines();
    reference_lines();
}
