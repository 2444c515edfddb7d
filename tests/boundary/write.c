/* Lines of a listing that are not a record's. */
#include <string.h>

#include "boundary.h"

static int64_t unit(const struct lent *l, const uint64_t *numbers)
{
    (void)numbers;
    return lampbuckle_write_unit(l[0].at, l[0].count, l[1].at, l[1].count);
}

static int64_t refused(const struct lent *l, const uint64_t *numbers)
{
    return lampbuckle_write_refused((uint32_t)numbers[0], (uint32_t)numbers[1], l[0].at, l[0].count);
}

static int64_t done(const struct lent *l, const uint64_t *numbers)
{
    return lampbuckle_write_done((uint32_t)numbers[0], l[0].at, l[0].count);
}

static const char room[64] = "what was there before, of sixty-three bytes and a zero byte here";

/* The unit line into so many bytes. */
static void unit_into(const char *name, struct slice numbers, size_t bytes, int64_t answer)
{
    static const char line[] = "01030001000200000064000000640000006d0001\n";
    struct slice out = {.elements = bytes != 0 ? room : NULL, .count = bytes, .width = 1};
    if (answer > 0)
        out = becomes(out, line, 0, sizeof line - 1);
    expect((struct call){name, unit, {0}, {numbers, out}, 2, answer});
}

static void units(void)
{
    static const uint32_t good[] = {3, 0, 1, 2, 100, 100, 109, 1}, longer[9] = {3, 0, 1, 2, 100, 100, 109, 1};
    struct slice numbers = ARRAY(good);
    unit_into("the unit line into its own length", numbers, 41, 41);
    unit_into("the unit line, bytes behind it", numbers, 64, 41);
    unit_into("the unit line, one byte too few", numbers, 40, -LAMPBUCKLE_NO_ROOM);
    unit_into("the unit line into nothing", numbers, 0, -LAMPBUCKLE_NO_ROOM);
    unit_into("a unit of 7 numbers", (struct slice){good, 7, sizeof *good, NULL, 0, 0}, 64, -LAMPBUCKLE_UNIT_OUT);
    unit_into("a unit of 9 numbers", (struct slice)ARRAY(longer), 64, -LAMPBUCKLE_UNIT_OUT);
    unit_into("no unit, and no room", (struct slice)NOTHING, 0, -LAMPBUCKLE_UNIT_OUT);
    static const uint32_t out[][8] = {
        {0, 0, 1, 2, 100, 100, 109, 1}, {7, 0, 1, 2, 100, 100, 109, 1}, {3, 2, 1, 2, 100, 100, 109, 1}, {3, 0, 0, 2, 100, 100, 109, 1},
        {3, 0, 3, 2, 100, 100, 109, 1}, {5, 0, 1, 2, 100, 100, 109, 1}, {3, 0, 1, 65536, 100, 100, 109, 1}, {3, 0, 1, 2, 100, 110, 109, 1},
        {3, 0, 1, 2, 100, 100, 109, 1025}, {4294967295, 0, 1, 2, 100, 100, 109, 1},
    };
    for (size_t i = 0; i < sizeof out / sizeof *out; i++) {
        unit_into("a unit value outside its range", (struct slice)ARRAY(out[i]), 64, -LAMPBUCKLE_UNIT_OUT);
        unit_into("the same, and no room", (struct slice)ARRAY(out[i]), 0, -LAMPBUCKLE_UNIT_OUT);
    }
}

/* An 05 or an 06 line into its own length, into more, into one byte too few, and into nothing. */
static void closing(const char *name, int64_t (*make)(const struct lent *, const uint64_t *), uint32_t a, uint32_t b, const char *line)
{
    size_t length = strlen(line);
    struct slice out = {.elements = room, .count = length, .width = 1};
    expect((struct call){name, make, {a, b}, {becomes(out, line, 0, length)}, 1, (int64_t)length});
    out.count = sizeof room;
    expect((struct call){name, make, {a, b}, {becomes(out, line, 0, length)}, 1, (int64_t)length});
    out.count = length - 1;
    expect((struct call){name, make, {a, b}, {out}, 1, -LAMPBUCKLE_NO_ROOM});
    expect((struct call){name, make, {a, b}, {NOTHING}, 1, -LAMPBUCKLE_NO_ROOM});
}

void write_calls(void)
{
    units();
    closing("an 05 line", refused, 0, 1, "05000001\n");
    closing("an 05 line behind a record", refused, 1023, 17, "0503ff11\n");
    closing("a refused resume", refused, LAMPBUCKLE_NO_RECORD, 15, "05ffff0f\n");
    closing("an 05 line of wide numbers: their low bytes", refused, 0x12345678, 0x12345678, "05567878\n");
    closing("an 06 line", done, 1, 0, "060001\n");
    closing("an 06 line of 1,024 records", done, 1024, 0, "060400\n");
    closing("an 06 line of a wide number: its low bytes", done, 4294967295, 0, "06ffff\n");
}
