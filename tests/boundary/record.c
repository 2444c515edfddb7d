/* The record call: document 01's example, each refusal, and of two faults the one that its Order names first. */
#include <string.h>

#include "boundary.h"

enum { UNIT, REFERENCE, SYMBOLS, COUNTS, STATE, LINE, OUT };

static int64_t record(const struct lent *l, const uint64_t *numbers)
{
    (void)numbers;
    return lampbuckle_record(l[UNIT].at, l[UNIT].count, l[REFERENCE].at, l[REFERENCE].count, l[SYMBOLS].at, l[SYMBOLS].count, l[COUNTS].at, l[COUNTS].count, l[STATE].at,
        l[STATE].count, l[LINE].at, l[LINE].count, l[OUT].at, l[OUT].count);
}

static const uint32_t unit[9] = {3, 0, 1, 2, 100, 100, 109, 1};
static uint8_t bases[LAMPBUCKLE_REFERENCE + 1] = {0, 1, 2, 3, 0, 1, 2, 3};
static uint32_t table[LAMPBUCKLE_TABLE + 1];
static const uint32_t none[9], first[9] = {1};
static char room[LAMPBUCKLE_LISTED];
static const char line[] = "03000000660008000002000100000401\n";
static const char listed[] = "04000000000000000000000000000000000000010001000000000000000000660000084741414343544e4e0008313d41323d43333d\n";

static struct slice numbers(const uint32_t *elements, size_t count)
{
    return (struct slice){elements, count, sizeof *elements, NULL, 0, 0};
}

static struct slice text(const char *t)
{
    return (struct slice){t, strlen(t), 1, NULL, 0, 0};
}

/* Document 01's example. */
static struct call good(const char *name)
{
    struct call c = {name, record, {0}, {numbers(unit, LAMPBUCKLE_UNIT), {bases, 8, 1, NULL, 0, 0}, numbers(table, LAMPBUCKLE_TABLE), numbers(none, LAMPBUCKLE_SUBSEQUENCES),
        numbers(none, LAMPBUCKLE_STATE), BYTES(line), {room, sizeof room, 1, NULL, 0, 0}}, 7, sizeof listed - 1};
    c.slices[STATE] = becomes(c.slices[STATE], first, 0, LAMPBUCKLE_STATE * sizeof *first);
    c.slices[OUT] = becomes(c.slices[OUT], listed, 0, sizeof listed - 1);
    return c;
}

/* The same call with another slice, refused: nothing becomes anything. */
static struct call with(struct call c, int which, struct slice s, int64_t answer)
{
    c.slices[which] = s;
    c.slices[STATE].after_bytes = c.slices[OUT].after_bytes = 0;
    c.answer = answer;
    return c;
}

static void refused(const char *name, int which, struct slice s, int refusal)
{
    expect(with(good(name), which, s, -refusal));
}

/* A record line of a unit, with pair symbols that are lent in the rows' first places. */
static void by_line(const char *name, const uint32_t *u, const uint32_t *counts, const char *t, int refusal)
{
    struct call c = with(good(name), UNIT, numbers(u, LAMPBUCKLE_UNIT), -refusal);
    c.slices[COUNTS] = numbers(counts, LAMPBUCKLE_SUBSEQUENCES);
    c.slices[LINE] = text(t);
    expect(c);
}

/* ---- what is lent */

static void shapes(void)
{
    struct slice nothing = NOTHING;
    refused("a unit of 7 numbers", UNIT, numbers(unit, 7), LAMPBUCKLE_UNIT_OUT);
    refused("a unit of 9 numbers", UNIT, numbers(unit, 9), LAMPBUCKLE_UNIT_OUT);
    refused("no unit", UNIT, nothing, LAMPBUCKLE_UNIT_OUT);
    refused("a reference of 32,769 bases", REFERENCE, (struct slice){bases, LAMPBUCKLE_REFERENCE + 1, 1, NULL, 0, 0}, LAMPBUCKLE_MISFRAMED);
    refused("symbols one too few", SYMBOLS, numbers(table, LAMPBUCKLE_TABLE - 1), LAMPBUCKLE_COUNT_OUT);
    refused("symbols one too many", SYMBOLS, numbers(table, LAMPBUCKLE_TABLE + 1), LAMPBUCKLE_COUNT_OUT);
    refused("no symbols", SYMBOLS, nothing, LAMPBUCKLE_COUNT_OUT);
    refused("seven counts", COUNTS, numbers(none, 7), LAMPBUCKLE_COUNT_OUT);
    refused("nine counts", COUNTS, numbers(none, 9), LAMPBUCKLE_COUNT_OUT);
    refused("no counts", COUNTS, nothing, LAMPBUCKLE_COUNT_OUT);
    refused("a state of 8 numbers", STATE, numbers(none, 8), LAMPBUCKLE_MISSING);
    refused("no state", STATE, nothing, LAMPBUCKLE_MISSING);
    refused("no line", LINE, nothing, LAMPBUCKLE_MALFORMED);
    refused("no room", OUT, nothing, LAMPBUCKLE_NO_ROOM);
    refused("one byte too few", OUT, (struct slice){room, sizeof listed - 2, 1, NULL, 0, 0}, LAMPBUCKLE_NO_ROOM);
    static const uint32_t ten[10];
    refused("a state of 10 numbers", STATE, numbers(ten, 10), LAMPBUCKLE_MISSING);
}

static void values(void)
{
    static const uint32_t units[][LAMPBUCKLE_UNIT] = {
        {0, 0, 1, 2, 100, 100, 109, 1}, {7, 0, 1, 2, 100, 100, 109, 1}, {3, 2, 1, 2, 100, 100, 109, 1}, {3, 0, 0, 2, 100, 100, 109, 1}, {3, 0, 3, 2, 100, 100, 109, 1},
        {5, 0, 1, 2, 100, 100, 109, 1}, {3, 0, 1, 65536, 100, 100, 109, 1}, {3, 0, 1, 2, 100, 110, 109, 1}, {3, 0, 1, 2, 100, 100, 109, 1025},
    };
    for (size_t i = 0; i < sizeof units / sizeof *units; i++)
        refused("a unit value outside its range", UNIT, numbers(units[i], LAMPBUCKLE_UNIT), LAMPBUCKLE_UNIT_OUT);
    static const uint32_t many[] = {0, 0, 0, 0, 0, 0, 0, 1025};
    refused("a count of 1,025", COUNTS, numbers(many, 8), LAMPBUCKLE_COUNT_OUT);
    refused("a state at the record count", STATE, numbers(first, LAMPBUCKLE_STATE), LAMPBUCKLE_MISSING);
    static const uint32_t above[LAMPBUCKLE_STATE] = {0, 0, 0, 0, 0, 0, 0, 0, 1}, far[LAMPBUCKLE_STATE] = {4294967295};
    refused("an index above its count", STATE, numbers(above, LAMPBUCKLE_STATE), LAMPBUCKLE_MISSING);
    refused("a number of 32 bits", STATE, numbers(far, LAMPBUCKLE_STATE), LAMPBUCKLE_MISSING);
}

/* ---- what the line says */

static void lines(void)
{
    refused("no 0A", LINE, (struct slice){line, sizeof line - 2, 1, NULL, 0, 0}, LAMPBUCKLE_MALFORMED);
    refused("other digits", LINE, text("0300000066000800000200010000040G\n"), LAMPBUCKLE_MALFORMED);
    refused("another kind", LINE, text("04000000660008000002000100000401\n"), LAMPBUCKLE_MISFRAMED);
    refused("cut in its last edit", LINE, text("030000006600080000020001000004\n"), LAMPBUCKLE_MISFRAMED);
    refused("a byte left over", LINE, text("0300000066000800000200010000040100\n"), LAMPBUCKLE_MISFRAMED);
    refused("read length 0", LINE, text("03000000660000000000\n"), LAMPBUCKLE_LENGTH_OUT);
    refused("read length 1,001", LINE, text("030000006603e9000000\n"), LAMPBUCKLE_LENGTH_OUT);
    refused("a symbol outside the alphabet", LINE, text("0300000066000800000100010500\n"), LAMPBUCKLE_SYMBOL_OUT);
    refused("rcomp 2", LINE, text("03000000660008020000\n"), LAMPBUCKLE_FIELD_OUT);
    refused("1,001 edits", LINE, text("030000006600080003e9\n"), LAMPBUCKLE_FIELD_OUT);
    refused("an offset at the read length", LINE, text("03000000660008000001000801\n"), LAMPBUCKLE_OFFSET_OUT);
    refused("two equal offsets", LINE, text("03000000660008000002000101000101\n"), LAMPBUCKLE_OFFSET_OUT);
    refused("a position before AU start", LINE, text("03000000630008000000\n"), LAMPBUCKLE_POSITION_OUT);
    refused("a read one past AU end", LINE, text("03000000670008000000\n"), LAMPBUCKLE_POSITION_OUT);
    static const uint8_t odd[] = {0, 1, 2, 3, 5, 1, 2, 3};
    refused("a reference byte outside the alphabet under a match", REFERENCE, (struct slice)ARRAY(odd), LAMPBUCKLE_SYMBOL_OUT);
}

static void classes(void)
{
    static const uint32_t i[] = {4, 0, 1, 2, 100, 100, 109, 1}, u[] = {6, 0, 1, 2, 100, 100, 109, 1}, two[] = {3, 0, 2, 2, 100, 100, 109, 1};
    by_line("clips reach the read length", i, none, "030000006600040001000400020000000200000000000000\n", LAMPBUCKLE_CLIPS_OUT);
    by_line("an edit of type 3", i, none, "03000000660004000100040000000000000000000100000300\n", LAMPBUCKLE_FIELD_OUT);
    by_line("a deletion with a symbol", i, none, "03000000660004000100040000000000000000000100000201\n", LAMPBUCKLE_FIELD_OUT);
    by_line("a deletion behind a substitution", i, none, "03000000660003000100030000000000000000000200010000" "00010200\n", LAMPBUCKLE_OFFSET_OUT);
    by_line("pos not 0 in class U", u, none, "0300000001000100\n", LAMPBUCKLE_POSITION_OUT);
    by_line("no pair code is left", two, none, line, LAMPBUCKLE_USED_UP);
    by_line("no pair code is left, and nothing behind the kind", two, none, "03\n", LAMPBUCKLE_USED_UP);
    static const uint32_t one[LAMPBUCKLE_SUBSEQUENCES] = {1, 1};
    table[0] = 7;
    by_line("pair code 7", two, one, line, LAMPBUCKLE_CODE_OUT);
    table[0] = 0;
    table[LAMPBUCKLE_SYMBOLS] = 65536;
    by_line("a pair value of 65,536", two, one, line, LAMPBUCKLE_VALUE_OUT);
    table[LAMPBUCKLE_SYMBOLS] = 0;
}

/* A read of class I at 100, forward, of four bases in two pieces of two; and its clips and edit count, of which there are none. */
#define TWO_PIECES "03" "00000064" "0004" "00" "02" "0002" "0002"
#define NO_MORE "0000000000000000" "0000" "\n"

/* Pair symbols in the rows' first places: a code, a distance, a position. */
static void lay_splice(uint32_t code, uint32_t distance, uint32_t position)
{
    table[0] = code;
    table[LAMPBUCKLE_SYMBOLS] = distance;
    table[3 * LAMPBUCKLE_SYMBOLS] = position;
}

static const uint32_t class_i[] = {4, 0, 1, 2, 100, 100, 109, 1}, by_distance[LAMPBUCKLE_SUBSEQUENCES] = {1, 1}, by_position[LAMPBUCKLE_SUBSEQUENCES] = {1, 0, 0, 1};

static void pieces(void)
{
    by_line("rcomp 3", class_i, none, "03" "00000064" "0004" "03" "00" "\n", LAMPBUCKLE_FIELD_OUT);
    by_line("no number of pieces", class_i, none, "03" "00000064" "0004" "00" "\n", LAMPBUCKLE_MISFRAMED);
    by_line("no piece", class_i, none, "03" "00000064" "0004" "00" "00" "\n", LAMPBUCKLE_LENGTH_OUT);
    by_line("17 pieces", class_i, none, "03" "00000064" "0004" "00" "11" "\n", LAMPBUCKLE_LENGTH_OUT);
    by_line("a piece of length 0", class_i, none, "03" "00000064" "0004" "00" "02" "0000" "\n", LAMPBUCKLE_LENGTH_OUT);
    by_line("cut in a length", class_i, none, "03" "00000064" "0004" "00" "02" "0004" "00" "\n", LAMPBUCKLE_MISFRAMED);
    by_line("lengths below the read length, and no symbol", class_i, none, "03" "00000064" "0004" "00" "02" "0002" "0001" "\n", LAMPBUCKLE_LENGTH_OUT);
    by_line("lengths above the read length, and no symbol", class_i, none, "03" "00000064" "0004" "00" "02" "0002" "0003" "\n", LAMPBUCKLE_LENGTH_OUT);
    by_line("a length of 65,535", class_i, none, "03" "00000064" "0004" "00" "02" "ffff" "0005" "\n", LAMPBUCKLE_LENGTH_OUT);
    by_line("no code of a piece", class_i, none, TWO_PIECES "\n", LAMPBUCKLE_USED_UP);
    static const uint32_t reserved[] = {1, 3, 4, 5, 6, 7, 4294967295};
    for (size_t k = 0; k < sizeof reserved / sizeof *reserved; k++) {
        lay_splice(reserved[k], 0, 0);
        by_line("a reserved code of a piece", class_i, by_distance, TWO_PIECES "\n", LAMPBUCKLE_CODE_OUT);
    }
    lay_splice(0, 65536, 0);
    by_line("no distance of a piece", class_i, by_position, TWO_PIECES "\n", LAMPBUCKLE_USED_UP);
    by_line("a distance of a piece from 65,536", class_i, by_distance, TWO_PIECES "\n", LAMPBUCKLE_VALUE_OUT);
    lay_splice(2, 0, 0);
    by_line("no position of a piece", class_i, by_distance, TWO_PIECES "\n", LAMPBUCKLE_USED_UP);
    lay_splice(0, 2, 0);
    by_line("a clip reaches the first piece's length", class_i, by_distance, TWO_PIECES "0002000000000000" "\n", LAMPBUCKLE_CLIPS_OUT);
    by_line("a clip reaches the last piece's length", class_i, by_distance, TWO_PIECES "0000000000020000" "\n", LAMPBUCKLE_CLIPS_OUT);
}

static void misplaced_pieces(void)
{
    lay_splice(0, 65535, 0);
    by_line("a piece below 0, and a byte left over", class_i, by_distance, TWO_PIECES "0000000000000000" "0000" "00" "\n", LAMPBUCKLE_POSITION_OUT);
    lay_splice(0, 0, 0);
    by_line("a splice of 0", class_i, by_distance, TWO_PIECES NO_MORE, LAMPBUCKLE_POSITION_OUT);
    lay_splice(2, 0, 4294967295);
    by_line("a piece behind the unit", class_i, by_position, TWO_PIECES NO_MORE, LAMPBUCKLE_POSITION_OUT);
    lay_splice(2, 0, 109);
    by_line("a piece that ends one past AU end", class_i, by_position, TWO_PIECES NO_MORE, LAMPBUCKLE_POSITION_OUT);
    lay_splice(2, 0, 101);
    by_line("a splice of -1", class_i, by_position, TWO_PIECES NO_MORE, LAMPBUCKLE_POSITION_OUT);
    lay_splice(2, 0, 99);
    by_line("a piece before AU start, and so a splice below 0", class_i, by_position, TWO_PIECES NO_MORE, LAMPBUCKLE_POSITION_OUT);
    /* in a unit of every position: in 32 bits the second piece would begin at position 1 */
    static const uint32_t every[] = {4, 0, 1, 2, 100, 0, 4294967295, 1};
    lay_splice(0, 2, 0);
    by_line("a piece past 2^32", every, by_distance, "03" "fffffffe" "0004" "00" "02" "0002" "0002" NO_MORE, LAMPBUCKLE_POSITION_OUT);
    lay_splice(2, 0, 109);
    /* piece by piece: what lies under the first is told before the place of the second */
    bases[1] = 5;
    by_line("a reference byte outside the alphabet under the first piece", class_i, by_position, TWO_PIECES NO_MORE, LAMPBUCKLE_SYMBOL_OUT);
    bases[1] = 1;
    bases[3] = 5;
    by_line("the same under the second, which is misplaced", class_i, by_position, TWO_PIECES NO_MORE, LAMPBUCKLE_POSITION_OUT);
    lay_splice(2, 0, 103);
    by_line("the same under the second", class_i, by_position, TWO_PIECES NO_MORE, LAMPBUCKLE_SYMBOL_OUT);
    bases[3] = 3;
    lay_splice(0, 0, 0);
}

/* A read of class I of one base at 100; and a second read, of two pieces of two bases: by a pair value of 5 it lies at 102. */
#define ONE_BASE "03" "00000064" "0001" "00" "01" "0001" "0000000000000000" "0000"
#define SECOND_READ "0004" "00" "02" "0002" "0002"

/* The symbols of a piece stand behind those of the pair: of a second read of class I, and of the first of HM, whose pair takes a value alone. */
static void pieces_behind_a_pair(void)
{
    static const uint32_t two[] = {4, 0, 2, 2, 100, 100, 109, 1}, half[] = {5, 0, 2, 2, 100, 100, 109, 1}, all[LAMPBUCKLE_SUBSEQUENCES] = {2, 2};
    lay_splice(0, 5, 0);
    by_line("no code of a second read's piece", two, by_distance, ONE_BASE SECOND_READ "\n", LAMPBUCKLE_USED_UP);
    by_line("lengths of a second read above its length", two, by_distance, ONE_BASE "0004" "00" "02" "0002" "0003" "\n", LAMPBUCKLE_LENGTH_OUT);
    table[1] = 1;
    by_line("code 1 of a second read's piece", two, all, ONE_BASE SECOND_READ "\n", LAMPBUCKLE_CODE_OUT);
    table[1] = 0;
    table[LAMPBUCKLE_SYMBOLS + 1] = 65536;
    by_line("a distance of a second read's piece from 65,536", two, all, ONE_BASE SECOND_READ "\n", LAMPBUCKLE_VALUE_OUT);
    by_line("a distance of a half-mapped read's piece from 65,536", half, all, TWO_PIECES "\n", LAMPBUCKLE_VALUE_OUT);
    table[LAMPBUCKLE_SYMBOLS + 1] = 0;
    by_line("a splice of 0 in a second read", two, all, ONE_BASE SECOND_READ NO_MORE, LAMPBUCKLE_POSITION_OUT);
    by_line("a splice of 0 in a half-mapped read", half, all, TWO_PIECES NO_MORE, LAMPBUCKLE_POSITION_OUT);
    by_line("no distance of a half-mapped read's piece", half, by_distance, TWO_PIECES "\n", LAMPBUCKLE_USED_UP);
    by_line("rcomp 3 of a half-mapped read", half, by_distance, "03" "00000064" "0004" "03" "\n", LAMPBUCKLE_FIELD_OUT);
    lay_splice(0, 0, 0);
}

/* A read of class I of four bases in one piece, without clips, at a position; behind it stand the number of its edits and they themselves. */
#define FOUR_BASES(pos) "03" pos "0004" "00" "01" "0004" "0000000000000000"

/* A deletion has a match or a substitution before it and one behind it. This is told behind the last edit and in front of the segment's place. */
static void deletions(void)
{
    by_line("a deletion before the first base", class_i, none, FOUR_BASES("00000064") "0001" "00000200" "\n", LAMPBUCKLE_OFFSET_OUT);
    by_line("a deletion behind the last base", class_i, none, FOUR_BASES("00000064") "0001" "00040200" "\n", LAMPBUCKLE_OFFSET_OUT);
    by_line("a deletion behind an insertion only", class_i, none, FOUR_BASES("00000064") "0002" "00000103" "00010200" "\n", LAMPBUCKLE_OFFSET_OUT);
    by_line("the same, and a type of 3 behind it", class_i, none, FOUR_BASES("00000064") "0003" "00000103" "00010200" "00010300" "\n", LAMPBUCKLE_FIELD_OUT);
    by_line("the same, and the frame ends in an edit", class_i, none, FOUR_BASES("00000064") "0003" "00000103" "00010200" "000100" "\n", LAMPBUCKLE_MISFRAMED);
    by_line("the same past AU end, and a byte left over", class_i, none, FOUR_BASES("0000006d") "0002" "00000103" "00010200" "00" "\n", LAMPBUCKLE_OFFSET_OUT);
    by_line("with a base before it, past AU end", class_i, none, FOUR_BASES("0000006d") "0002" "00000103" "00020200" "\n", LAMPBUCKLE_POSITION_OUT);
    /* over introns: in the read's last piece, of which the place is misplaced as well; and between the pieces */
    lay_splice(0, 0, 0);
    by_line("a deletion behind the last piece, and a splice of 0", class_i, by_distance, TWO_PIECES "0000000000000000" "0001" "00040200" "\n", LAMPBUCKLE_OFFSET_OUT);
    by_line("a deletion between the pieces, and a splice of 0", class_i, by_distance, TWO_PIECES "0000000000000000" "0001" "00020200" "\n", LAMPBUCKLE_POSITION_OUT);
}

/* ---- of two faults the first in the Order; each is a slice of a call that is good but for it */

static void order(void)
{
    static const uint32_t many[] = {1025, 0, 0, 0, 0, 0, 0, 0};
    const struct { int which; struct slice s; int refusal; } faults[] = {
        {UNIT, numbers(unit, 7), LAMPBUCKLE_UNIT_OUT},
        {REFERENCE, {bases, LAMPBUCKLE_REFERENCE + 1, 1, NULL, 0, 0}, LAMPBUCKLE_MISFRAMED},
        {SYMBOLS, numbers(table, 0), LAMPBUCKLE_COUNT_OUT},
        {COUNTS, numbers(many, 8), LAMPBUCKLE_COUNT_OUT},
        {STATE, numbers(none, 8), LAMPBUCKLE_MISSING},
        {LINE, text("0"), LAMPBUCKLE_MALFORMED},
        {OUT, NOTHING, LAMPBUCKLE_NO_ROOM},
    };
    size_t n = sizeof faults / sizeof *faults;
    for (size_t i = 0; i < n; i++)
        for (size_t k = i + 1; k < n; k++) {
            struct call c = with(good("two faults"), faults[k].which, faults[k].s, -faults[k].refusal);
            expect(with(c, faults[i].which, faults[i].s, -faults[i].refusal));
        }
    struct call c = with(good("a record refused, and no room"), LINE, text("03000000630008000000\n"), -LAMPBUCKLE_POSITION_OUT);
    expect(with(c, OUT, (struct slice)NOTHING, -LAMPBUCKLE_POSITION_OUT));
}

/* ---- accepted calls */

static void accepted(void)
{
    expect(good("document 01's example"));
    struct call c = good("the same into its own length");
    c.slices[OUT].count = sizeof listed - 1;
    expect(c);
    /* without a reference every position reads as N */
    static const char padded[] = "04000000000000000000000000000000000000010001000000000000000000660000084e414e4e434e4e4e0008313d41323d43333d\n";
    c = good("the same without a reference");
    c.slices[REFERENCE] = (struct slice)NOTHING;
    c.slices[OUT] = becomes(c.slices[OUT], padded, 0, sizeof padded - 1);
    expect(c);
    /* code 0 and value 5: two segments, read1First 0, the mate two behind */
    static const uint32_t two[] = {1, 0, 2, 2, 100, 100, 109, 4}, counts[] = {2, 1, 0, 0, 0, 0, 0, 0}, state[] = {2, 1, 0, 0, 0, 0, 0, 0, 0}, next[] = {3, 2, 1, 0, 0, 0, 0, 0, 0};
    static const char pair[] = "04" "0002" "00020001" "000000000000000000000000" "000002" "0002" "00000066"
        "00000064" "00" "0001" "41" "0002" "313d" "00000066" "01" "0001" "47" "0002" "313d" "\n";
    table[1] = 0;
    table[LAMPBUCKLE_SYMBOLS] = 5;
    c = good("a pair in one record");
    c.slices[UNIT] = numbers(two, LAMPBUCKLE_UNIT);
    c.slices[COUNTS] = numbers(counts, LAMPBUCKLE_SUBSEQUENCES);
    c.slices[STATE] = becomes(numbers(state, LAMPBUCKLE_STATE), next, 0, sizeof next);
    c.slices[LINE] = text("03" "00000064" "0001" "00" "0001" "01" "\n");
    c.slices[OUT] = becomes(c.slices[OUT], pair, 0, sizeof pair - 1);
    c.answer = sizeof pair - 1;
    expect(c);
    table[LAMPBUCKLE_SYMBOLS] = 0;
}

static void over_introns(void)
{
    /* two pieces by a distance of 1, rcomp 2; and 16 of one base each */
    static const uint32_t next[LAMPBUCKLE_STATE] = {1, 1, 1}, codes[LAMPBUCKLE_SUBSEQUENCES] = {15, 15}, last[LAMPBUCKLE_STATE] = {1, 15, 15}, wide[] = {4, 0, 1, 2, 100, 100, 200, 1};
    static const char spliced[] = "04" "0000" "00010001" "000000000000000000000000" "010001" "0000" "00000000"
        "00000064" "02" "0004" "41435441" "0006" "323d312a323d" "\n";
    lay_splice(0, 2, 0);
    struct call c = good("two pieces");
    c.slices[UNIT] = numbers(class_i, LAMPBUCKLE_UNIT);
    c.slices[COUNTS] = numbers(by_distance, LAMPBUCKLE_SUBSEQUENCES);
    c.slices[STATE] = becomes(c.slices[STATE], next, 0, sizeof next);
    c.slices[LINE] = text("03" "00000064" "0004" "02" "02" "0002" "0002" NO_MORE);
    c.slices[OUT] = becomes(c.slices[OUT], spliced, 0, sizeof spliced - 1);
    c.answer = sizeof spliced - 1;
    expect(c);
    /* every second position, by distances of 1: 15 splices over one position each */
#define THREE_LENGTHS "0001" "0001" "0001"
#define THREE_SPLICES "312f313d" "312f313d" "312f313d"
    static const char most[] = "04" "0000" "000f000f" "000000000000000000000000" "010001" "0000" "00000000"
        "00000064" "00" "0010" "41474147" "4e4e4e4e4e4e4e4e4e4e4e4e" "003e" "313d" THREE_SPLICES THREE_SPLICES THREE_SPLICES THREE_SPLICES THREE_SPLICES "\n";
    for (size_t k = 0; k < 15; k++) {
        table[k] = 0;
        table[LAMPBUCKLE_SYMBOLS + k] = 2;
    }
    c = good("16 pieces");
    c.slices[UNIT] = numbers(wide, LAMPBUCKLE_UNIT);
    c.slices[COUNTS] = numbers(codes, LAMPBUCKLE_SUBSEQUENCES);
    c.slices[STATE] = becomes(c.slices[STATE], last, 0, sizeof last);
    c.slices[LINE] = text("03" "00000064" "0010" "00" "10" THREE_LENGTHS THREE_LENGTHS THREE_LENGTHS THREE_LENGTHS THREE_LENGTHS "0001" NO_MORE);
    c.slices[OUT] = becomes(c.slices[OUT], most, 0, sizeof most - 1);
    c.answer = sizeof most - 1;
    expect(c);
    for (size_t k = 0; k < 15; k++)
        table[LAMPBUCKLE_SYMBOLS + k] = 0;
}

void record_calls(void)
{
    memset(room, 'x', sizeof room);
    accepted();
    over_introns();
    shapes();
    values();
    lines();
    classes();
    pieces();
    misplaced_pieces();
    pieces_behind_a_pair();
    deletions();
    order();
}
