/* Slices lent to a call, each in pages of its own between two that nobody may touch: one byte too far stops the program. */
#ifndef BOUNDARY_LEND_H
#define BOUNDARY_LEND_H

#include <stddef.h>
#include <stdint.h>

/* Which of the two guarding pages the slice lies against. */
enum side { AT_START, AT_END };

struct lent {
    uint8_t *map; /* the pages, with the two guards */
    size_t map_bytes;
    uint8_t *open; /* the pages between the guards */
    size_t open_bytes;
    void *at; /* the slice, or NULL where NULL is lent */
    size_t bytes;
    size_t count; /* its elements */
};

/* So many elements of a width, or NULL and no element. Around the slice the pages hold a pattern. */
struct lent lend(const void *elements, size_t count, size_t width, enum side side);

void take_back(struct lent *l);

#endif
