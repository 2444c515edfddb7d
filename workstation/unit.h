/* What both programs need of a unit: a file line by line, the lines in front of its records, and the records themselves. */
#ifndef WORKSTATION_UNIT_H
#define WORKSTATION_UNIT_H

#include <stdio.h>

#include "lampbuckle.h"

/* A file, read through a buffer that holds the longest line and never grows. */
struct source {
    FILE *file;
    const char *name;
    size_t at, end; /* the bytes that are read and not yet taken */
    uint8_t bytes[1 << 16];
};

/* A unit and all that a record call is lent with it. */
struct unit {
    uint32_t numbers[LAMPBUCKLE_UNIT];
    uint32_t symbols[LAMPBUCKLE_TABLE];
    uint32_t counts[LAMPBUCKLE_SUBSEQUENCES];
    uint8_t reference[LAMPBUCKLE_REFERENCE];
    size_t bases;
    /* the first line of the listing */
    uint8_t first[LAMPBUCKLE_LISTED];
    size_t first_length;
    /* the number that refuses a line in front of the records, or 0; and whether the listing is then its first line alone */
    uint32_t refusal;
    int alone;
};

/* Says what went wrong with a file on standard error, and ends the program. */
void fail(const char *name);

void open_source(struct source *s, const char *name);

/* Reads on where there is room in the buffer: 0 at the end of the file. */
size_t read_on(struct source *s);

/* The next line, with its 0A, or as much of it as the longest line has: its length, or 0 at the end of the file. */
size_t next_line(struct source *s, const uint8_t **line);

/* Reads the reference and the lines of the unit file in front of its records. */
void read_front(struct unit *u, struct source *reference, struct source *file);

/* Prints what stands in the listing behind its first line, from a state on. */
void list_records(const struct unit *u, struct source *file, uint32_t state[LAMPBUCKLE_STATE]);

void print_refused(uint32_t number, uint32_t refusal);

void print(const uint8_t *bytes, size_t length);

/* Ends the program: everything is written, or it says what went wrong. */
int finish(void);

#endif
