/* One call across the boundary as data: what is lent, and what must be answered and lie there afterwards. */
#ifndef BOUNDARY_H
#define BOUNDARY_H

#include "lampbuckle.h"
#include "lend.h"

#define MOST_SLICES 7

/* A slice to lend. After the call `after_bytes` bytes from `after_at` on are those of `after`; every other byte is as it was. */
struct slice {
    const void *elements; /* NULL: NULL is lent, with no element */
    size_t count, width;
    const void *after;
    size_t after_at, after_bytes;
};

struct call {
    const char *name;
    int64_t (*make)(const struct lent *l, const uint64_t *numbers);
    uint64_t numbers[2];
    struct slice slices[MOST_SLICES];
    size_t slice_count;
    int64_t answer;
};

/* Makes a call on both sides, and then shows of each thing that is compared that another one is noticed. */
void expect(struct call c);

/* What the calls of a family are. */
void line_calls(void);
void write_calls(void);
void record_calls(void);
void resume_calls(void);

/* Elements of an array or of a text; and that the front of a slice becomes something. */
#define BYTES(text) {.elements = (text), .count = sizeof(text) - 1, .width = 1}
#define ARRAY(a) {.elements = (a), .count = sizeof(a) / sizeof *(a), .width = sizeof *(a)}
#define NOTHING {.elements = NULL, .count = 0, .width = 1}

static inline struct slice becomes(struct slice s, const void *after, size_t at, size_t bytes)
{
    s.after = after;
    s.after_at = at;
    s.after_bytes = bytes;
    return s;
}

#endif
