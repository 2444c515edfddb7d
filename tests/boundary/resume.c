/* Going on with a listing that was stopped. */
#include <string.h>

#include "boundary.h"

static struct slice text(const char *t)
{
    return (struct slice){t, strlen(t), 1, NULL, 0, 0};
}

/* ---- what is kept */

static int64_t keep(const struct lent *l, const uint64_t *numbers)
{
    (void)numbers;
    return lampbuckle_keep(l[0].at, l[0].count, l[1].at, l[1].count);
}

static void kept(const char *name, struct slice piece, const size_t *before, const size_t *after, int64_t answer)
{
    struct slice numbers = {before, LAMPBUCKLE_KEEP, sizeof *before, NULL, 0, 0};
    expect((struct call){name, keep, {0}, {piece, becomes(numbers, after, 0, LAMPBUCKLE_KEEP * sizeof *after)}, 2, answer});
}

static void keeps(void)
{
    static const size_t fresh[6];
    kept("two lines and a part", text("0100\n0402\n04"), fresh, (const size_t[]){5, 5, 10, 12, 0}, 0);
    kept("no line", text("0402"), fresh, (const size_t[]){0, 0, 0, 4, 0}, 0);
    kept("nothing", (struct slice)NOTHING, fresh, fresh, 0);
    kept("a zero byte behind a line", (struct slice)BYTES("01\n\0" "02\n"), fresh, (const size_t[]){3, 0, 3, 3, 1}, 1);
    kept("a zero byte at once", (struct slice)BYTES("\0"), fresh, (const size_t[]){0, 0, 0, 0, 1}, 1);
    kept("going on in a line", text("2\n03\n"), (const size_t[]){5, 5, 10, 12, 0}, (const size_t[]){5, 14, 17, 17, 0}, 0);
    kept("going on behind a zero byte", text("01\n"), (const size_t[]){3, 0, 3, 3, 1}, (const size_t[]){3, 0, 3, 3, 1}, 1);
    kept("any number but 0 is done", text("01\n"), (const size_t[]){3, 0, 3, 3, 7}, (const size_t[]){3, 0, 3, 3, 1}, 1);
    kept("all that can be counted is", text("1\n"), (const size_t[]){3, 0, 3, SIZE_MAX - 1, 0}, (const size_t[]){3, 0, 3, SIZE_MAX, 1}, 1);
    struct slice piece = BYTES("01\n");
    expect((struct call){"keep of 4 numbers", keep, {0}, {piece, {fresh, 4, sizeof *fresh, NULL, 0, 0}}, 2, -LAMPBUCKLE_MISSING});
    expect((struct call){"keep of 6 numbers", keep, {0}, {piece, {fresh, 6, sizeof *fresh, NULL, 0, 0}}, 2, -LAMPBUCKLE_MISSING});
    expect((struct call){"no keep", keep, {0}, {piece, NOTHING}, 2, -LAMPBUCKLE_MISSING});
}

/* ---- where to go on */

static const char unit[] = "01030001000200000064000000640000006d0004\n";
static const uint32_t counts[] = {1, 0, 0, 0, 0, 0, 0, 2, 3}, old[] = {9, 8, 7, 6, 5, 4, 3, 2, 1, 0};

static int64_t place(const struct lent *l, const uint64_t *numbers)
{
    return lampbuckle_place(l[0].at, l[0].count, (uint32_t)numbers[0], l[1].at, l[1].count, l[2].at, l[2].count, l[3].at, l[3].count, l[4].at, l[4].count);
}

/* A state of 9 numbers, of a unit of so many records whose listing begins with `unit`. */
static void placed(const char *name, uint64_t records, struct slice first, struct slice last, const uint32_t *state, int64_t answer)
{
    struct slice all = {counts, 8, sizeof *counts, NULL, 0, 0}, lent = {old, LAMPBUCKLE_STATE, sizeof *old, NULL, 0, 0};
    if (state != NULL)
        lent = becomes(lent, state, 0, LAMPBUCKLE_STATE * sizeof *state);
    expect((struct call){name, place, {records}, {BYTES(unit), all, first, last, lent}, 5, answer});
}

/* An 04 line of 27 bytes, and of 28, of a record number and the last index. */
#define SHORT(number, index) "04" number "0000000000000000000000000000" index "0100010000000000"
#define LISTED(number, index) SHORT(number, index) "00\n"

static void places(void)
{
    static const uint32_t fresh[LAMPBUCKLE_STATE], next[] = {4, 0, 0, 0, 0, 0, 0, 0, 2};
    struct slice nothing = NOTHING, first = BYTES(unit);
    placed("nothing is kept", 4, nothing, nothing, fresh, LAMPBUCKLE_AFRESH);
    placed("the first line is kept", 4, first, first, fresh, LAMPBUCKLE_SECOND);
    placed("an 04 line", 4, first, text(LISTED("0003", "0002")), next, LAMPBUCKLE_ON);
    placed("an 05 line", 4, first, text("05000101\n"), fresh, LAMPBUCKLE_OVER);
    placed("an 06 line", 4, first, text("060004\n"), fresh, LAMPBUCKLE_OVER);
    placed("another first line", 4, text("01\n"), first, NULL, -LAMPBUCKLE_OTHER_FIRST);
    placed("a number at the record count", 4, first, text(LISTED("0004", "0002")), NULL, -LAMPBUCKLE_OTHER_LAST);
    placed("an index above its count", 4, first, text(LISTED("0003", "0003")), NULL, -LAMPBUCKLE_OTHER_LAST);
    placed("no record is there", 0, first, text(LISTED("0000", "0000")), NULL, -LAMPBUCKLE_OTHER_LAST);
    placed("an 04 line of 27 bytes", 4, first, text(SHORT("0003", "0002") "\n"), NULL, -LAMPBUCKLE_OTHER_LAST);
    placed("an 05 line of 5 bytes", 4, first, text("0500010100\n"), NULL, -LAMPBUCKLE_OTHER_LAST);
    placed("an 06 line without 0A", 4, first, text("060004"), NULL, -LAMPBUCKLE_OTHER_LAST);
    placed("no last line", 4, first, nothing, NULL, -LAMPBUCKLE_OTHER_LAST);
}

static void place_shapes(void)
{
    struct slice nothing = NOTHING, first = BYTES(unit), all = {counts, 8, sizeof *counts, NULL, 0, 0}, state = {old, LAMPBUCKLE_STATE, sizeof *old, NULL, 0, 0};
    for (size_t n = 7; n <= 9; n += 2) {
        struct slice other = {counts, n, sizeof *counts, NULL, 0, 0};
        expect((struct call){"other counts", place, {4}, {first, other, first, first, state}, 5, -LAMPBUCKLE_COUNT_OUT});
    }
    expect((struct call){"no counts, and no state", place, {4}, {first, nothing, first, first, nothing}, 5, -LAMPBUCKLE_COUNT_OUT});
    for (size_t n = 8; n <= 10; n += 2) {
        struct slice other = {old, n, sizeof *old, NULL, 0, 0};
        expect((struct call){"another state, and another first line", place, {4}, {first, all, text("01\n"), first, other}, 5, -LAMPBUCKLE_MISSING});
    }
    expect((struct call){"no state", place, {4}, {first, all, first, first, nothing}, 5, -LAMPBUCKLE_MISSING});
    expect((struct call){"no first line is listed", place, {4}, {nothing, all, first, first, state}, 5, -LAMPBUCKLE_OTHER_FIRST});
    /* of the longest line that is well formed every byte is looked at, and nothing behind it */
    static char most[LAMPBUCKLE_LISTED + 2];
    memset(most, '0', sizeof most);
    memcpy(most, "04", 2);
    most[LAMPBUCKLE_LISTED - 1] = '\n';
    static const uint32_t next[LAMPBUCKLE_STATE] = {1};
    placed("an 04 line of 20,808 digits", 4, first, (struct slice){most, LAMPBUCKLE_LISTED, 1, NULL, 0, 0}, next, LAMPBUCKLE_ON);
    most[LAMPBUCKLE_LISTED - 1] = '0';
    placed("the front of a longer line", 4, first, (struct slice){most, LAMPBUCKLE_LISTED + 1, 1, NULL, 0, 0}, NULL, -LAMPBUCKLE_OTHER_LAST);
}

/* ---- lines passed over */

static int64_t pass(const struct lent *l, const uint64_t *numbers)
{
    (void)numbers;
    return lampbuckle_pass(l[0].at, l[0].count, l[1].at, l[1].count);
}

static void passed(const char *name, struct slice piece, size_t wanted, size_t left, int64_t answer)
{
    struct slice number = {&wanted, 1, sizeof wanted, NULL, 0, 0};
    expect((struct call){name, pass, {0}, {piece, becomes(number, &left, 0, sizeof left)}, 2, answer});
}

static void passes(void)
{
    static const size_t two[] = {1, 1};
    passed("none is wanted", text("01\n"), 0, 0, 0);
    passed("the second of three", text("01\n\n03\n"), 2, 0, 4);
    passed("fewer than are wanted", text("01\n02"), 3, 2, 5);
    passed("zero bytes and other digits go by", (struct slice)BYTES("\0xyz\n1"), 1, 0, 5);
    passed("nothing", (struct slice)NOTHING, 3, 3, 0);
    passed("as many as there can be", text("\n"), SIZE_MAX, SIZE_MAX - 1, 1);
    struct slice piece = BYTES("01\n");
    expect((struct call){"two numbers wanted", pass, {0}, {piece, ARRAY(two)}, 2, -LAMPBUCKLE_MISSING});
    expect((struct call){"no number wanted", pass, {0}, {piece, NOTHING}, 2, -LAMPBUCKLE_MISSING});
}

void resume_calls(void)
{
    keeps();
    places();
    place_shapes();
    passes();
}
