/* Dowrhesk for C: the functions of the static library crates/capi/out/libcapi.a.
 *
 *     (cd crates/capi && rt lib)
 *     cc -I include program.c crates/capi/out/libcapi.a
 *
 * A slice is a pointer and a length in elements; an empty slice may be null. What is lent to one call
 * must not overlap, except what is only read (const). Nothing is kept after a call, nothing is allocated.
 *
 * Each function but the last two returns 0 when done, or the number of its refusal, and writes every
 * number of out:
 *
 *      1  columns over 16 (writing and candidates: or 0)      8  list longer than its room
 *      2  table over 4,096 records, slices of different       9  malformed cube
 *         length, or count over the table's length           10  text over 32,768 bytes
 *      3  a record in use breaks its rule                    11  text fault
 *      4  a root, operand, column or point out of range      12  type fr: a point both on and off
 *      5  L not within U                                     13  text room too short
 *      6  list slice over 16,384 cubes
 *      7  node room lacking
 *
 * "Returned" is the value that belongs to a refusal: at 8 the length needed, at 9 the position of the
 * first malformed cube from 1, at 11 the line of the first fault from 1, at 13 the bytes needed, else 0.
 * Refusals 1 to 6, 9, 10 and 13 change nothing that is lent besides out.
 *
 * A node table has two faces, and a count of records in use. The functions below lend it as three slices
 * of one length, level, low and high: the plain face, which copies nothing. Those named dowrhesk_row_..
 * lend it as one row of records, each a struct dowrhesk_node: for a caller whose table is such a row, at
 * the price of copying its records in and out at each call, on some 140 KB of stack. Both give the same
 * numbers and leave the same records, and a table may go from one face to the other between two calls.
 * Numbers 0 and 1 are the constants, record i (from 0) has number i + 2. A point has bit k for column k.
 * A cube has bit k if column k must be 1, and bit 16 + k if it must be 0.
 */
#ifndef DOWRHESK_H
#define DOWRHESK_H

#include <stddef.h>
#include <stdint.h>

#ifdef __cplusplus
extern "C" {
#endif

#define DOWRHESK_DONE 0
#define DOWRHESK_COLUMNS_OVER 1
#define DOWRHESK_TABLE_OVER 2
#define DOWRHESK_RECORD_BROKEN 3
#define DOWRHESK_OUT_OF_RANGE 4
#define DOWRHESK_NOT_WITHIN 5
#define DOWRHESK_LIST_OVER 6
#define DOWRHESK_NODES_LACK 7
#define DOWRHESK_LIST_LACKS 8
#define DOWRHESK_CUBE_MALFORMED 9
#define DOWRHESK_TEXT_OVER 10
#define DOWRHESK_TEXT_FAULT 11
#define DOWRHESK_ON_AND_OFF 12
#define DOWRHESK_TEXT_LACKS 13

#define DOWRHESK_MOST_COLUMNS 16
#define DOWRHESK_MOST_RECORDS 4096
#define DOWRHESK_MOST_CUBES 16384
#define DOWRHESK_MOST_BYTES 32768

/* The kinds of a verdict. Cubes are named from 1, columns from 0, points by their numbers. */
#define DOWRHESK_ACCEPT 0  /* 0, 0 */
#define DOWRHESK_OFF 1     /* the first cube covering an off point, the smallest such point */
#define DOWRHESK_MISSING 2 /* the smallest on point not covered, 0 */
#define DOWRHESK_LITERAL 3 /* the first cube, and its leftmost column, whose literal can go */
#define DOWRHESK_CUBE 4    /* the first cube that can go, 0 */

/* A record of a node table that is lent as a row. */
typedef struct dowrhesk_node {
    uint16_t level;
    uint16_t low;
    uint16_t high;
} dowrhesk_node;

/* The operations that build. out: the root, the count of records in use. Refusals 1, 2, 3, 4, 7.
 * At a refusal the root is 0 and the count the one given. At done and at 7 the records past the count are
 * zero. */

/* 1 where both roots are. */
uint16_t dowrhesk_and(uint16_t columns, uint16_t *level, size_t levels, uint16_t *low, size_t lows,
                      uint16_t *high, size_t highs, size_t count, uint16_t a, uint16_t b,
                      uint64_t out[2]);

/* 1 where either root is. */
uint16_t dowrhesk_or(uint16_t columns, uint16_t *level, size_t levels, uint16_t *low, size_t lows,
                     uint16_t *high, size_t highs, size_t count, uint16_t a, uint16_t b,
                     uint64_t out[2]);

/* 1 where the first root is and the second is not. */
uint16_t dowrhesk_difference(uint16_t columns, uint16_t *level, size_t levels, uint16_t *low,
                             size_t lows, uint16_t *high, size_t highs, size_t count, uint16_t a,
                             uint16_t b, uint64_t out[2]);

/* 1 where a column is 1. */
uint16_t dowrhesk_variable(uint16_t columns, uint16_t *level, size_t levels, uint16_t *low,
                           size_t lows, uint16_t *high, size_t highs, size_t count, uint16_t column,
                           uint64_t out[2]);

/* The value of a root at a point. out: 0 or 1; 0 at a refusal. Refusals 1, 2, 3, 4. */
uint16_t dowrhesk_value(uint16_t columns, const uint16_t *level, size_t levels, const uint16_t *low,
                        size_t lows, const uint16_t *high, size_t highs, size_t count, uint16_t root,
                        uint32_t point, uint64_t out[1]);

/* The list of the rule for L (lower) and U (upper). out: returned, the length of the list.
 * Refusals 1 to 8. At 7, 8 and done the records past the count are zero, and the room is zero but for the
 * cubes delivered at done. */
uint16_t dowrhesk_generate(uint16_t columns, uint16_t *level, size_t levels, uint16_t *low,
                           size_t lows, uint16_t *high, size_t highs, size_t count, uint16_t lower,
                           uint16_t upper, uint32_t *room, size_t cubes, uint64_t out[2]);

/* The verdict on any list for L and U. out: the kind of the verdict and its two values; at a refusal
 * returned, 0, 0. Refusals 1 to 6, 9. Nothing is written besides out. */
uint16_t dowrhesk_check(uint16_t columns, const uint16_t *level, size_t levels, const uint16_t *low,
                        size_t lows, const uint16_t *high, size_t highs, size_t count, uint16_t lower,
                        uint16_t upper, const uint32_t *list, size_t cubes, uint64_t out[3]);

/* Reads a function text into a table. out: returned, columns, count, L, U; the last four are 0 at a
 * refusal. Refusals 10, 2 (length only), 11, 7, 12. At 11, 7 and 12 the table is zero; at done the records
 * past the count are. */
uint16_t dowrhesk_read_function(const uint8_t *text, size_t bytes, uint16_t *level, size_t levels,
                                uint16_t *low, size_t lows, uint16_t *high, size_t highs,
                                uint64_t out[5]);

/* The same functions on a row of records: each is given what its namesake is given, and tells and leaves
 * what its namesake does. */

uint16_t dowrhesk_row_and(uint16_t columns, dowrhesk_node *nodes, size_t records, size_t count,
                          uint16_t a, uint16_t b, uint64_t out[2]);

uint16_t dowrhesk_row_or(uint16_t columns, dowrhesk_node *nodes, size_t records, size_t count,
                         uint16_t a, uint16_t b, uint64_t out[2]);

uint16_t dowrhesk_row_difference(uint16_t columns, dowrhesk_node *nodes, size_t records,
                                 size_t count, uint16_t a, uint16_t b, uint64_t out[2]);

uint16_t dowrhesk_row_variable(uint16_t columns, dowrhesk_node *nodes, size_t records, size_t count,
                               uint16_t column, uint64_t out[2]);

uint16_t dowrhesk_row_value(uint16_t columns, const dowrhesk_node *nodes, size_t records,
                            size_t count, uint16_t root, uint32_t point, uint64_t out[1]);

uint16_t dowrhesk_row_generate(uint16_t columns, dowrhesk_node *nodes, size_t records, size_t count,
                               uint16_t lower, uint16_t upper, uint32_t *room, size_t cubes,
                               uint64_t out[2]);

uint16_t dowrhesk_row_check(uint16_t columns, const dowrhesk_node *nodes, size_t records,
                            size_t count, uint16_t lower, uint16_t upper, const uint32_t *list,
                            size_t cubes, uint64_t out[3]);

uint16_t dowrhesk_row_read_function(const uint8_t *text, size_t bytes, dowrhesk_node *nodes,
                                    size_t records, uint64_t out[5]);

/* Reads the list of a candidate text for a function of so many columns. out: returned, the number of
 * rows. Refusals 1, 10, 6, 11, 8. At 11 and 8 the room is zero; at done it has the cubes, then zeros. */
uint16_t dowrhesk_read_candidate(uint16_t columns, const uint8_t *text, size_t bytes, uint32_t *room,
                                 size_t cubes, uint64_t out[2]);

/* Writes a list as text. out: returned, the bytes written. Refusals 1, 6, 9, 13. At done the room past
 * the text is zero. */
uint16_t dowrhesk_write_list(uint16_t columns, const uint32_t *list, size_t cubes, uint8_t *room,
                             size_t bytes, uint64_t out[2]);

/* The two programs. Each answers a whole input, any bytes, in the program's own words, and returns the
 * number of bytes of its answer; the room past them is zero. A room below DOWRHESK_ANSWER_ROOM, which
 * every answer fits, is left as it is, and 0 is returned. */
#define DOWRHESK_ANSWER_ROOM 29206

/* A function text gives its list, or `refused N M`. */
size_t dowrhesk_list_answer(const uint8_t *input, size_t bytes, uint8_t *answer, size_t room);

/* A function text and a candidate after its `.e` give `accept`, `off CUBE POINT`, `missing POINT`,
 * `literal CUBE COLUMN`, `cube CUBE` or `refused N M`. */
size_t dowrhesk_check_answer(const uint8_t *input, size_t bytes, uint8_t *answer, size_t room);

#ifdef __cplusplus
}
#endif

#endif
