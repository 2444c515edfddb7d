/*
 * lampbuckle.h: the decoder, as a C program calls it.
 *
 * Every call is lent numbers and slices and keeps none of them: nothing is allocated and nothing is held between calls, so that
 * threads may call at once, each on memory of its own. A slice is a pointer and the number of its elements; the caller owns it
 * before and after. A `const` slice is only read. NULL with 0 elements is an empty slice. What the caller answers for: a pointer
 * points to so many elements, aligned as C aligns them, and a slice that is written overlaps no other slice of the same call.
 *
 * Every call answers an int64_t:
 *   - 0 or more: it is accepted, and the number is what the call says below;
 *   - below 0: it is refused, and the number is minus one of enum lampbuckle_refusal. No lent byte differs then.
 *
 * Nothing else makes a call undefined. A slice of a wrong length is refused by a number, in the place that document 01's Order
 * has for that number; what becomes of a value outside its range is said with each call.
 *
 * A line is lent with the 0A that ends it. A last line that has none is lent as it is, and refused by 1.
 */
#ifndef LAMPBUCKLE_H
#define LAMPBUCKLE_H

#include <stddef.h>
#include <stdint.h>

#ifdef __cplusplus
extern "C" {
#endif

/* ---- limits */

/* The most bytes of an input line, its 0A among them. */
#define LAMPBUCKLE_LINE 20191
/* The most bytes of a line of a listing, its 0A among them: lent so many, no record is refused by 17. */
#define LAMPBUCKLE_LISTED 20809
/* The most reference bases. */
#define LAMPBUCKLE_REFERENCE 32768
/* The most records of a unit. */
#define LAMPBUCKLE_RECORDS 1024
/* The record number of a refused resume. */
#define LAMPBUCKLE_NO_RECORD 0xffff
/* Subsequences of pair symbols, and the most symbols of one. */
#define LAMPBUCKLE_SUBSEQUENCES 8
#define LAMPBUCKLE_SYMBOLS 1024

/* ---- the slices of numbers, and what stands where in them */

/* A unit: the values of the unit line, in its order. */
#define LAMPBUCKLE_UNIT 8
enum lampbuckle_unit_number {
    LAMPBUCKLE_UNIT_CLASS,    /* 1 P, 2 N, 3 M, 4 I, 5 HM, 6 U */
    LAMPBUCKLE_UNIT_ALPHABET, /* 0 or 1 */
    LAMPBUCKLE_UNIT_SEGMENTS, /* template segments, 1 or 2; 2 in class HM */
    LAMPBUCKLE_UNIT_SEQUENCE, /* sequence id, at most 65535 */
    LAMPBUCKLE_UNIT_FIRST,    /* position of the first lent reference base */
    LAMPBUCKLE_UNIT_START,    /* AU start */
    LAMPBUCKLE_UNIT_END,      /* AU end, not below AU start */
    LAMPBUCKLE_UNIT_RECORDS   /* record count, at most LAMPBUCKLE_RECORDS */
};

/* The pair symbols of all subsequences, one row each: symbol k of subsequence s stands at s * LAMPBUCKLE_SYMBOLS + k. */
#define LAMPBUCKLE_TABLE (LAMPBUCKLE_SUBSEQUENCES * LAMPBUCKLE_SYMBOLS)

/* A state: the number of the next record, then the indexes: how many symbols of each subsequence are taken. All 0 before the first record. */
#define LAMPBUCKLE_INDEXES 8
#define LAMPBUCKLE_STATE (1 + LAMPBUCKLE_INDEXES)

/* What is known of a found file. All 0 before its first byte. */
#define LAMPBUCKLE_KEEP 5
enum lampbuckle_keep_number {
    LAMPBUCKLE_KEEP_FIRST, /* bytes of the first kept line, its 0A among them; 0 where nothing is kept */
    LAMPBUCKLE_KEEP_LAST,  /* where the last kept line starts */
    LAMPBUCKLE_KEEP_KEPT,  /* how many bytes are kept: the last kept line ends there */
    LAMPBUCKLE_KEEP_SEEN,  /* how many bytes are counted */
    LAMPBUCKLE_KEEP_DONE   /* 1 where nothing that follows is kept, else 0; any number but 0 is taken as 1 */
};

/* ---- refusals: the numbers of document 01 */

enum lampbuckle_refusal {
    LAMPBUCKLE_MALFORMED = 1,     /* other digits, odd count, too long a line, or a line without 0A */
    LAMPBUCKLE_MISFRAMED = 2,     /* wrong kind or subsequence number, a frame that ends early, bytes left over, reference counts exceeded */
    LAMPBUCKLE_UNIT_OUT = 3,      /* a unit field outside its values; a unit that is not LAMPBUCKLE_UNIT numbers */
    LAMPBUCKLE_COUNT_OUT = 4,     /* a symbol count above its limit; counts or symbols of another shape */
    LAMPBUCKLE_USED_UP = 5,       /* a pair symbol is wanted, by a record or by the pieces of a read, and its subsequence is used up */
    LAMPBUCKLE_CODE_OUT = 6,      /* pair code 7 or more; a code of a piece other than 0 and 2 */
    LAMPBUCKLE_VALUE_OUT = 7,     /* a value taken from subsequence 1, 4 or 5 above 65535 */
    LAMPBUCKLE_LENGTH_OUT = 8,    /* read length 0 or above 1000; not 1 to 16 pieces, a piece of length 0, or lengths that do not add
                                     up to the read length */
    LAMPBUCKLE_CLIPS_OUT = 9,     /* soft clips reach the read length, or that of the first or the last of several pieces */
    LAMPBUCKLE_SYMBOL_OUT = 10,   /* a symbol outside the alphabet, or such a reference byte under a match */
    LAMPBUCKLE_FIELD_OUT = 11,    /* rcomp (0 or 1; in classes I and HM 0 to 2), edit type, edit count or deletion symbol outside its
                                     values */
    LAMPBUCKLE_OFFSET_OUT = 12,   /* offset out of order or outside the read; a deletion with no match or substitution before it in its
                                     read, or none behind it */
    LAMPBUCKLE_POSITION_OUT = 13, /* a position outside the unit, that of a piece too; a splice that would count 0 or less; pos not 0
                                     in class U */
    LAMPBUCKLE_MISSING = 14,      /* a state that the unit does not have, or numbers of another shape; the caller's own, for lines that
                                     are missing, bytes behind the last record line, and pair symbols left over */
    LAMPBUCKLE_OTHER_FIRST = 15,  /* the first kept line is not the listing's first line */
    LAMPBUCKLE_OTHER_LAST = 16,   /* the last kept line cannot be continued */
    LAMPBUCKLE_NO_ROOM = 17       /* lent output shorter than the line with its 0A; a lent reference too short for its bases */
};

/* ---- the lines in front of the records */

/*
 * Reads a unit line.
 * @param line, line_length  the line, with its 0A
 * @param unit, unit_length  LAMPBUCKLE_UNIT numbers, written as enum lampbuckle_unit_number says
 * @return the line's bytes; or -3 for a unit of another length, then -1, -2 or -3 for the line
 */
int64_t lampbuckle_unit_line(const uint8_t *line, size_t line_length, uint32_t *unit, size_t unit_length);

/*
 * Reads the pair line of a subsequence. The eight lines come in order, 0 to 7.
 * @param line, line_length        the line, with its 0A
 * @param subsequence              the number that the line must have, 0 to 7
 * @param symbols, symbols_length  LAMPBUCKLE_TABLE numbers: the line's symbols are written at the front of the subsequence's row,
 *                                 and every other place holds what it held
 * @param counts, counts_length    LAMPBUCKLE_SUBSEQUENCES numbers: the count is written at `subsequence`
 * @return the symbol count; or -4 for symbols or counts of another length, -2 for no such subsequence, then -1, -2 or -4 for the line
 */
int64_t lampbuckle_pair_line(const uint8_t *line, size_t line_length, uint32_t subsequence, uint32_t *symbols, size_t symbols_length, uint32_t *counts, size_t counts_length);

/*
 * Reads a reference line behind the bases that are there.
 * @param line, line_length            the line, with its 0A
 * @param reference, reference_length  a byte for each base: the line's are written from place `used` on. LAMPBUCKLE_REFERENCE
 *                                     bytes hold every reference
 * @param used                         how many bases stand there: 0 at first, then what the call before answered
 * @return how many bases stand there now; or -1 or -2 for the line and the counts, -17 where what is lent is too short for them
 */
int64_t lampbuckle_reference_line(const uint8_t *line, size_t line_length, uint8_t *reference, size_t reference_length, size_t used);

/* ---- a record */

/*
 * Lists the next record: one record line in, one 04 line out. In classes I and HM each aligned block has its pieces behind rcomp: their
 * number (a byte, 1 to 16) and their lengths (two bytes each), which add up to the read length. Each piece behind the first takes a code
 * from subsequence 0, and a value from 1 or a position from 3, behind the symbols of the pair. A deletion stands between bases of its read
 * that match or are substituted. An E-CIGAR has at most 4165 characters, of a read in one piece at most 4012.
 * @param unit, unit_length            LAMPBUCKLE_UNIT numbers, as a unit line gave them
 * @param reference, reference_length  the reference's bases, as many as the reference lines gave: no more than LAMPBUCKLE_REFERENCE
 * @param symbols, symbols_length      LAMPBUCKLE_TABLE numbers, as the pair lines gave them
 * @param counts, counts_length        LAMPBUCKLE_SUBSEQUENCES numbers, as the pair lines gave them
 * @param state, state_length          LAMPBUCKLE_STATE numbers: the state before the record, and after an accepted call the next
 * @param line, line_length            the record line, with its 0A
 * @param out, out_length              the 04 line is written at the front, with its 0A, and nothing behind it. LAMPBUCKLE_LISTED
 *                                     bytes are enough for every record
 * @return the bytes written; or minus the first refusal in the order of document 01: 3 (unit), 2 (reference), 4 (counts and symbols),
 *         14 (state), 1 (line), then 2 and 5 to 13 as the record is read, last 17 (out)
 */
int64_t lampbuckle_record(const uint32_t *unit, size_t unit_length, const uint8_t *reference, size_t reference_length, const uint32_t *symbols, size_t symbols_length,
    const uint32_t *counts, size_t counts_length, uint32_t *state, size_t state_length, const uint8_t *line, size_t line_length, uint8_t *out, size_t out_length);

/* ---- the other lines of a listing */

/*
 * Writes the unit line, the first of a listing.
 * @param unit, unit_length  LAMPBUCKLE_UNIT numbers
 * @param out, out_length    the line is written at the front, with its 0A, and nothing behind it
 * @return the bytes written; or -3 for numbers that are no unit, -17 where less is lent than the line needs
 */
int64_t lampbuckle_write_unit(const uint32_t *unit, size_t unit_length, uint8_t *out, size_t out_length);

/*
 * Writes an 05 line, the last of a listing at a refusal, or the only one of a refused resume.
 * @param number           the record number: 0 before the first record, the record count behind the last, LAMPBUCKLE_NO_RECORD for a
 *                         refused resume. Its low two bytes are written
 * @param refusal          the refusal number. Its low byte is written
 * @param out, out_length  as for lampbuckle_write_unit
 * @return the bytes written, or -17
 */
int64_t lampbuckle_write_refused(uint32_t number, uint32_t refusal, uint8_t *out, size_t out_length);

/*
 * Writes an 06 line, the last of a listing where nothing is refused.
 * @param count            the record count. Its low two bytes are written
 * @param out, out_length  as for lampbuckle_write_unit
 * @return the bytes written, or -17
 */
int64_t lampbuckle_write_done(uint32_t count, uint8_t *out, size_t out_length);

/* ---- going on with a listing that was stopped */

/*
 * Takes one piece more of a found file, of any size.
 * @param piece, piece_length  the next bytes of the file
 * @param keep, keep_length    LAMPBUCKLE_KEEP numbers, as enum lampbuckle_keep_number says: what is known before the piece, and then behind it
 * @return 1 where nothing that follows is kept, so that the rest of the file need not be read, else 0; or -14 for a keep of another length
 */
int64_t lampbuckle_keep(const uint8_t *piece, size_t piece_length, size_t *keep, size_t keep_length);

/* Where a listing goes on. */
enum lampbuckle_go {
    LAMPBUCKLE_AFRESH, /* nothing is kept: the whole listing is added */
    LAMPBUCKLE_SECOND, /* all behind the first line is added */
    LAMPBUCKLE_ON,     /* the records from the state on are added: as many record lines as its number says are passed over */
    LAMPBUCKLE_OVER    /* the listing is whole: nothing is added */
};

/*
 * Says where a listing goes on, by the first and the last line that is kept of it.
 * @param listed, listed_length  the first line that the listing has: the unit line, or the 05 line of a refused reference or unit line
 * @param count                  the record count, any number; 0 where a reference, unit or pair line is refused or a line is missing
 * @param counts, counts_length  LAMPBUCKLE_SUBSEQUENCES numbers: the symbol counts; all 0 in the same case
 * @param first, first_length    the first kept line, with its 0A; empty where nothing is kept
 * @param last, last_length      the last kept line, with its 0A. Of a line of more than LAMPBUCKLE_LISTED bytes the first
 *                               LAMPBUCKLE_LISTED + 1 are enough, and of `first` as well
 * @param state, state_length    LAMPBUCKLE_STATE numbers: an accepted call writes the state to go on from
 * @return one of enum lampbuckle_go; or -4 for counts of another length, -14 for a state of another length, -15 or -16
 */
int64_t lampbuckle_place(const uint8_t *listed, size_t listed_length, uint32_t count, const uint32_t *counts, size_t counts_length, const uint8_t *first, size_t first_length,
    const uint8_t *last, size_t last_length, uint32_t *state, size_t state_length);

/*
 * Passes over lines by their 0A, in pieces of any size.
 * @param piece, piece_length    the next bytes of the unit file
 * @param wanted, wanted_length  one number: how many 0A are still to go by, and then how many are wanted behind the piece
 * @return how many bytes of the piece are passed over: all of them where more 0A are wanted; or -14 for a slice of another length
 */
int64_t lampbuckle_pass(const uint8_t *piece, size_t piece_length, size_t *wanted, size_t wanted_length);

#ifdef __cplusplus
}
#endif

#endif
