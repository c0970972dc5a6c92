/* A header that doors/test alone reads, for the kinds of parameters that include/g7231.h may come to have. */
#ifndef G7231_H
#define G7231_H

#include <stddef.h>
#include <stdint.h>

#ifdef __cplusplus
extern "C" {
#endif

#define G7231_VERSION "9.8.7"

enum {
    G7231_ROWS = 4 /* rows of a table */
};

enum {
    G7231_DONE = 0,   /* done */
    G7231_LENGTH = 1, /* a list of another length than asked for */
    G7231_SUM = 3     /* a sum out of range */
};

const char *g7231_refusal(uint32_t status);

/* A memory that the caller holds. */
typedef struct {
    int16_t gain;           /* one number */
    uint8_t tag[3];         /* some bytes */
    float line[G7231_ROWS]; /* and what C puts between */
    int16_t grid[2][3];     /* two rows */
    double sum;
} g7231_held_state;

/* A memory in parts: the bare forms
 * take its fields one by one. */
typedef struct {
    float level;
    int16_t rows[2][3]; /* as one buffer */
} g7231_kept;

/* An answer in parts. The bare forms take its fields one by one. */
typedef struct {
    int32_t total;
    double each[2];
} g7231_told;

/* A memory with numbers that stay as they were made. The bare forms take its fields one by one. */
typedef struct {
    uint8_t step;
    int16_t least;
    double scale;
    int32_t sums[2];
} g7231_counter;

/* Three numbers out of six bytes. Has no bare form.
 * Takes:
 *   bytes: any, 6 of them
 * Makes:
 *   out: 3 numbers
 * Refuses:
 *   1 G7231_LENGTH: len is not 6, or out_len is not 3 */
uint32_t g7231_unpack(const uint8_t *bytes, size_t len, int16_t *out, size_t out_len);

/* A number of each kind.
 * Takes:
 *   rows: speech, as whole numbers; 7 of them
 *   a, b, c, d: any
 *   e: factor
 *   state: any, moved on
 * Refuses:
 *   1 G7231_LENGTH: rows_len is not 7
 *   3 G7231_SUM: d is the least number */
uint32_t g7231_mix(const int16_t *rows, size_t rows_len, uint8_t a, int16_t b, uint16_t c, int32_t d, double e,
                   g7231_held_state *state, int32_t *sum);

/* A struct by value, and two of them lent.
 * Takes:
 *   one: any
 *   two: any
 * Refuses: nothing */
uint32_t g7231_gains(g7231_held_state one, const g7231_held_state two[2], uint16_t gains[3]);

/* Structs in parts: one moved on, one answered.
 * Takes:
 *   kept.level: factor, moved on
 *   kept.rows: speech, moved on
 *   by: any
 * Refuses:
 *   3 G7231_SUM: by is the least number
 *   1 G7231_LENGTH: the level is below 0
 *   3 G7231_SUM: by is the greatest number */
uint32_t g7231_move(g7231_kept *kept, int32_t by, g7231_told *told);

/* Numbers out of a file into a list, and where one row of them stands. Has no bare form.
 * Takes:
 *   file: row file, 5,128 bytes or more
 *   band: band, 0 to 2
 *   row: row index
 * Makes:
 *   numbers: 2,560 of them
 * Refuses:
 *   1 G7231_LENGTH: len is above 32,768 or below 5,128, or numbers_len is not 2,560
 *   3 G7231_SUM: the file does not end as it must, or any number is outside
 *     -8,192..8,192, or there is no such row */
uint32_t g7231_unroll(const uint8_t *file, size_t len, int16_t *numbers, size_t numbers_len, uint32_t band, uint8_t row,
                      size_t *start, size_t *count);

/* Slices on both sides of a struct in parts.
 * Takes:
 *   by: code rows, 5 of them
 *   kept.level: factor, moved on
 *   kept.rows: code rows, moved on
 *   bytes: any, 2 of them
 * Refuses:
 *   1 G7231_LENGTH: by_len is not 5
 *   3 G7231_SUM: len is not 2 */
uint32_t g7231_shift(const int16_t *by, size_t by_len, g7231_kept *kept, const uint8_t *bytes, size_t len, size_t *far);

/* A struct in parts that is only read: its number goes by value.
 * Takes:
 *   kept.level: factor
 *   kept.rows: any
 * Refuses: nothing */
uint32_t g7231_look(const g7231_kept *kept, int32_t *last);

/* A struct in parts, made.
 * Takes:
 *   by: any
 * Refuses: nothing */
uint32_t g7231_new_counter(uint8_t by, g7231_counter *counter);

/* A struct in parts of which some is moved on: its other numbers go by value.
 * Takes:
 *   counter.step, counter.least: any
 *   counter.scale: factor
 *   counter.sums: any, moved on
 * Refuses:
 *   3 G7231_SUM: the scale is not 0 or above */
uint32_t g7231_count(g7231_counter *counter, int32_t *count);

#ifdef __cplusplus
}
#endif

#endif
