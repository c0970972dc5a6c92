/* Analysis stages of a G.723.1 speech coder, for x86-64: a frame of 16-bit samples
 * in one call, and each stage by itself.
 *
 * Status. Every function but g7231_refusal answers a status: G7231_DONE, or why
 * it refused. A refused call has had no effect: every buffer that it was lent is
 * as it was, bit for bit. Checks are made in the order in which a function's
 * refusals are listed here; the first that fails gives the status.
 *
 * Floating-point mode. Whatever mode the calling thread is in, the bits are the
 * same, and the mode word (MXCSR, flags included) is afterwards what it was. A
 * host that is sure of IEEE's default mode may call the bare forms, which do not
 * look at it: g7231_bare.h has them.
 *
 * Threads and memory. Every function is reentrant: nothing is allocated, and what
 * is kept between calls is the caller's. So any threads may call at once, as long
 * as no one writes a buffer that another call has. A call takes less than 16 KB of
 * stack, one of g7231_code_frame or g7231_code_frame_in less than 28 KB.
 *
 * Buffers have the lengths written here and may not be null; a struct is a buffer
 * too. Buffers of one call may not overlap, but for this: buffers of floats that
 * are only read (const) may start exactly where one other buffer of floats starts,
 * one of them or all of them. The proofs take buffers as apart; that this holds is
 * tested.
 *
 * Words after `Takes:`, up to the comma, say what a parameter, or a field of one,
 * holds in a sound call; no function asks for more than its refusals say. What is
 * `moved on` is read and then written for the next call. Parameters not listed are
 * answers.
 *
 * Compile and link with `pkg-config --cflags --libs g7231`.
 */
#ifndef G7231_H
#define G7231_H

#include <stddef.h>
#include <stdint.h>

#ifdef __cplusplus
extern "C" {
#endif

#define G7231_VERSION "0.8.0"

enum {
    G7231_BANDS = 3,            /* bands of a line set, each with a row of the code tables */
    G7231_ORDER = 10,           /* lines of a set, taps of a filter, values of its memory */
    G7231_FILTER = 11,          /* coefficients of a filter, the leading 1 among them */
    G7231_LAG_MIN = 18,         /* the shortest pitch lag */
    G7231_SUBFRAME = 60,        /* samples of a subframe */
    G7231_GATEWAY_LAG_MAX = 82, /* the longest pitch lag of a conference gateway */
    G7231_GATEWAY_PAST = 85,    /* samples that it looks back on */
    G7231_LAG_MAX = 142,        /* the longest pitch lag of a logger, and of a frame */
    G7231_PAST = 145,           /* samples that these look back on */
    G7231_WINDOW = 180,         /* samples of a window of linear prediction */
    G7231_FRAME = 240,          /* samples of a frame */
    G7231_SPAN = 360,           /* samples that a frame is coded from: 60 before it, its 240, 60 after it */
    G7231_ROWS = 2560           /* numbers of the code rows: 256 rows of three, 256 of three, 256 of four */
};

enum {
    G7231_DONE = 0,         /* done */
    G7231_LENGTH = 1,       /* a list of another length than asked for */
    G7231_CHOICE = 2,       /* no such choice */
    G7231_PLACE = 3,        /* a place with too few samples around it */
    G7231_LAG = 4,          /* a lag out of range */
    G7231_NOT_FINITE = 5,   /* an infinity or a NaN */
    G7231_MAGNITUDE = 6,    /* a number out of range */
    G7231_NO_LINE_SET = 7,  /* the filter has no set of ten line frequencies */
    G7231_FRAME_LENGTH = 8, /* a frame of other than 360 samples */
    G7231_INDEX = 9,        /* an index of more than 24 bits */
    G7231_ROW_FILE = 10,    /* no file of code rows */
    G7231_ROW_NUMBER = 11   /* a code row's number outside -8,192..8,192 */
};

/* 12 is what the program losses refuses a line of its input with: no function here
 * answers it, and it has no name. */

/* What a status means, in words; never null. */
const char *g7231_refusal(uint32_t status);

/* What a coder keeps between frames, in the caller's memory. The bare forms take
 * its fields one by one. */
typedef struct {
    float set[G7231_ORDER];     /* the line frequencies that the decoder has */
    float lines[G7231_ORDER];   /* the stabilised line cosines of the last frame */
    float x_mem[G7231_ORDER];   /* the weighting filter's last inputs, most recent first */
    float f_mem[G7231_ORDER];   /* and its last outputs */
    float weighted[G7231_PAST]; /* the weighted speech before the frame, oldest first */
} g7231_coder;

/* What one frame is coded as. The bare forms take its fields one by one. */
typedef struct {
    uint32_t index;           /* of the line frequencies, 24 bits */
    uint32_t pitch[2];        /* the pitch lag of each half */
    uint32_t lag[4];          /* the noise shaping of each subframe: its lag */
    float factor[4];          /* and its factor */
    float a[4][G7231_FILTER]; /* the filter of each subframe */
} g7231_frame;

/* What the combined filter keeps between subframes, in the caller's memory. The bare
 * forms take its fields one by one. Its limit is set when the memory is made, and no
 * call alters it. */
typedef struct {
    uint32_t lag_limit;        /* the longest pitch lag of its caller: 142 or 82 */
    float syn[G7231_ORDER];    /* the synthesis filter's last outputs, most recent first */
    float wz_mem[G7231_ORDER]; /* the weighting filter's last inputs, most recent first */
    float wp_mem[G7231_ORDER]; /* and its last outputs */
    float p_hist[G7231_PAST];  /* the last harmonic inputs, oldest first, in the first lag_limit + 3 places */
} g7231_filter_memory;

/* A coder before its first frame: the resting set, its cosines, and silence.
 * Refuses: nothing */
uint32_t g7231_new_coder(g7231_coder *coder);

/* Codes one frame by the stages below, all but the combined filter, and moves the
 * coder on to the next. A sample counts as its own value. The line frequencies are
 * those of the last of the four windows; where its filter has none, the decoded
 * set is quantised again. The lines are used as g7231_enforce_lsp_stability leaves
 * them, converged or not.
 *
 * While no index is lost, coder->set, coder->lines and frame->a are bit for bit
 * what a decoder makes of the indices: g7231_decode_lsp_freq after its last set,
 * g7231_lsp_freq_to_cosines, g7231_enforce_lsp_stability with the same spacing;
 * then for subframes 0 to 3 g7231_interpolate_lsp after its last cosines, and
 * g7231_lsp_to_lpc. It starts where g7231_new_coder does.
 * Takes:
 *   coder.set: frequencies, moved on
 *   coder.lines: cosines, moved on
 *   coder.x_mem, coder.f_mem, coder.weighted: speech, moved on
 *   samples: speech, 360 samples, of which the frame is the 240 from place 60 on
 *   spacing_hz: spacing, 0 to 400 Hz
 * Refuses:
 *   8 G7231_FRAME_LENGTH: len is not 360
 *   5 G7231_NOT_FINITE: any of coder->set
 *   6 G7231_MAGNITUDE: any of coder->set above 65,536 in magnitude
 *   5 G7231_NOT_FINITE: the spacing
 *   6 G7231_MAGNITUDE: the spacing below 0 or above 400
 *   5 G7231_NOT_FINITE: any other of the coder, or any sample that the weighting
 *     filter makes */
uint32_t g7231_code_frame(g7231_coder *coder, const int16_t *samples, size_t len, float spacing_hz, g7231_frame *frame);

/* Linear prediction of one window: the filter, the sums of its autocorrelation,
 * and the second reflection.
 * Takes:
 *   window: speech, 180 samples
 * Refuses:
 *   1 G7231_LENGTH: len is not 180
 *   5 G7231_NOT_FINITE: any of the samples */
uint32_t g7231_lpc_analysis(const float *window, size_t len, float a[G7231_FILTER], double r[G7231_FILTER], float *k2);

/* The line spectral pairs of a filter, as ten cosines that fall strictly.
 * Takes:
 *   a: filter
 * Refuses:
 *   5 G7231_NOT_FINITE: any of the coefficients, a[0] included
 *   7 G7231_NO_LINE_SET: the filter has no such ten; quantise the decoded set again */
uint32_t g7231_lpc_to_lsp(const float a[G7231_FILTER], float lsp[G7231_ORDER]);

/* Ten line cosines to frequencies, 0 to 32,768 over half a circle. A cosine
 * outside -1..1 counts as the nearer of the two.
 * Takes:
 *   cosines: cosines
 * Refuses:
 *   5 G7231_NOT_FINITE: any of the cosines */
uint32_t g7231_lsp_cosines_to_freq(const float cosines[G7231_ORDER], float freq[G7231_ORDER]);

/* Ten line frequencies to cosines. A frequency takes the nearest of the 2^24 steps of half a circle, a half going to the
 * even one.
 * Takes:
 *   freq: frequencies
 * Refuses:
 *   5 G7231_NOT_FINITE: any of the frequencies
 *   6 G7231_MAGNITUDE: any of them above 65,536 in magnitude */
uint32_t g7231_lsp_freq_to_cosines(const float freq[G7231_ORDER], float cosines[G7231_ORDER]);

/* The line frequencies that both ends of a line start from, as the set before the
 * first. Has no bare form.
 * Refuses: nothing */
uint32_t g7231_resting_set(float set[G7231_ORDER]);

/* Quantises ten line frequencies after the previous set: a 24-bit index, and
 * the set that the decoder makes of it, bit for bit.
 * Takes:
 *   p: frequencies
 *   prev: frequencies, the last call's set, or the resting set
 * Refuses:
 *   5 G7231_NOT_FINITE: any of either set
 *   6 G7231_MAGNITUDE: any of either set above 65,536 in magnitude */
uint32_t g7231_quantise_lsp_freq(const float p[G7231_ORDER], const float prev[G7231_ORDER], uint32_t *index,
                                 float set[G7231_ORDER]);

/* The set of an index after the previous set. An index that the line lost is no
 * word at all: nothing is decoded for it, and the decoder keeps its set.
 * Takes:
 *   index: index, 24 bits
 *   prev: frequencies, the last call's set, or the resting set
 * Refuses:
 *   9 G7231_INDEX: the index is above 16,777,215
 *   5 G7231_NOT_FINITE: any of the previous set
 *   6 G7231_MAGNITUDE: any of it above 65,536 in magnitude */
uint32_t g7231_decode_lsp_freq(uint32_t index, const float prev[G7231_ORDER], float set[G7231_ORDER]);

/* The row of each band that an index names, band 0's first: the index's three
 * bytes, the highest first. Has no bare form.
 * Takes:
 *   index: index, 24 bits
 * Refuses:
 *   9 G7231_INDEX: the index is above 16,777,215 */
uint32_t g7231_split_lsp_index(uint32_t index, uint8_t bands[G7231_BANDS]);

/* The index of three rows, one a band: what g7231_split_lsp_index splits.
 * Has no bare form.
 * Takes:
 *   bands: any, the row of each band, band 0's first
 * Refuses: nothing */
uint32_t g7231_combine_lsp_index(const uint8_t bands[G7231_BANDS], uint32_t *index);

/* Spreads lines that stand closer than a spacing, in at most ten passes;
 * *converged is 1 where a pass met no pair too close, else 0. Afterwards the first
 * line is held off 0 and the last off half a circle, by half the spacing and at
 * least 0.001 radians, which can bring them nearer to their neighbours again, or
 * past them.
 * Takes:
 *   cosines: cosines
 *   spacing_hz: spacing, 0 to 400 Hz
 * Refuses:
 *   5 G7231_NOT_FINITE: any of the cosines, or the spacing
 *   6 G7231_MAGNITUDE: the spacing below 0 or above 400 */
uint32_t g7231_enforce_lsp_stability(const float cosines[G7231_ORDER], float spacing_hz, float out[G7231_ORDER],
                                     uint32_t *converged);

/* The lines of a subframe between the last frame's and this one's.
 * Takes:
 *   choice: choice, where 0, 1, 2 weigh 3/4, 1/2, 1/4 of the last frame's lines
 *     and any other number is this frame's
 *   prev, cur: cosines, the last frame's and this one's
 * Refuses:
 *   5 G7231_NOT_FINITE: any of either set, whatever the choice */
uint32_t g7231_interpolate_lsp(size_t choice, const float prev[G7231_ORDER], const float cur[G7231_ORDER],
                               float out[G7231_ORDER]);

/* The filter of a line set.
 * Takes:
 *   lsp: cosines
 * Refuses:
 *   5 G7231_NOT_FINITE: any of the cosines */
uint32_t g7231_lsp_to_lpc(const float lsp[G7231_ORDER], float a[G7231_FILTER]);

/* Taps of the perceptual weighting filter: its zeros and its poles.
 * Takes:
 *   a: filter
 * Refuses:
 *   5 G7231_NOT_FINITE: any of the coefficients, a[0] included */
uint32_t g7231_weighting_taps(const float a[G7231_FILTER], float wz[G7231_ORDER], float wp[G7231_ORDER]);

/* One subframe through the weighting filter.
 * Takes:
 *   x: speech, 60 samples
 *   wz, wp: taps, zeros and poles
 *   x_mem, f_mem: speech, moved on; the last ten samples in and out, most recent
 *     first
 * Refuses:
 *   1 G7231_LENGTH: len is not 60
 *   5 G7231_NOT_FINITE: any float given, memories included */
uint32_t g7231_weight_subframe(const float *x, size_t len, const float wz[G7231_ORDER], const float wp[G7231_ORDER],
                               float x_mem[G7231_ORDER], float f_mem[G7231_ORDER], float out[G7231_SUBFRAME]);

/* Limits of lags. A caller's pitch lags end at a limit: 142 for a logger, 82 for a
 * conference gateway, and no other. With 82 less past is asked for: 85 samples where a
 * logger needs 145. A frame has 142. */

/* The pitch lag, 18 to the limit, of one half of a frame that starts at place
 * limit + 3 of the weighted speech.
 * Takes:
 *   limit: lag limit, 142 or 82
 *   wbuf: speech, 385 samples for either half and either limit; limit + 123 for half
 *     0, limit + 243 for half 1: 265 and 385 with 142, 205 and 325 with 82
 *   half: half, 0 or 1
 * Refuses:
 *   2 G7231_CHOICE: limit is neither 142 nor 82
 *   2 G7231_CHOICE: half is above 1
 *   1 G7231_LENGTH: len is below what that half needs
 *   5 G7231_NOT_FINITE: any of the samples that that half needs; later ones are not
 *     looked at */
uint32_t g7231_open_loop_pitch(uint32_t limit, const float *wbuf, size_t len, size_t half, uint32_t *lag);

/* The lag, 18 to limit + 3, and the factor of harmonic noise shaping for the subframe
 * at place, around a pitch lag. Shaping off is lag 18 with factor 0.
 * Takes:
 *   limit: lag limit, 142 or 82
 *   wbuf: speech, 385 samples of weighted speech hold a frame and its past
 *   place: place, where the subframe starts
 *   l_ol: pitch lag, as g7231_open_loop_pitch answers it with the same limit
 * Refuses:
 *   2 G7231_CHOICE: limit is neither 142 nor 82
 *   4 G7231_LAG: l_ol is outside 18..limit
 *   3 G7231_PLACE: limit + 3 samples before place, or 60 from it on, are not all there
 *   5 G7231_NOT_FINITE: any sample from place - (limit + 3) to place + 59; others are
 *     not looked at */
uint32_t g7231_harmonic_noise_shaping(uint32_t limit, const float *wbuf, size_t len, size_t place, uint32_t l_ol,
                                      uint32_t *lag, float *beta);

/* A filter memory at rest: the limit, and zeros in all other fields, the places that
 * are not in use included.
 * Takes:
 *   limit: lag limit, 142 or 82
 * Refuses:
 *   2 G7231_CHOICE: limit is neither 142 nor 82 */
uint32_t g7231_new_filter_memory(uint32_t limit, g7231_filter_memory *memory);

/* One subframe through synthesis, weighting and harmonic filter. Of memory->p_hist the
 * first lag_limit + 3 places are in use, 145 or 85; the others are neither read nor
 * altered.
 * Takes:
 *   memory.lag_limit: lag limit, 142 or 82
 *   memory.syn, memory.wz_mem, memory.wp_mem, memory.p_hist: speech, moved on
 *   input: speech
 *   aq: filter
 *   wz, wp: taps, zeros and poles
 *   lag: lag, 18 to lag_limit + 3
 *   beta: factor
 * Refuses:
 *   2 G7231_CHOICE: memory->lag_limit is neither 142 nor 82
 *   4 G7231_LAG: lag is outside 18..lag_limit + 3
 *   5 G7231_NOT_FINITE: any float given, beta and the memory included, but for the
 *     places of memory->p_hist that are not in use */
uint32_t g7231_run_combined(g7231_filter_memory *memory, const float input[G7231_SUBFRAME],
                            const float aq[G7231_FILTER], const float wz[G7231_ORDER], const float wp[G7231_ORDER],
                            uint32_t lag, float beta, float out[G7231_SUBFRAME]);

/* The same filter's response to the unit impulse, from rest.
 * Takes:
 *   limit: lag limit, 142 or 82
 *   aq: filter
 *   wz, wp: taps, zeros and poles
 *   lag: lag, 18 to limit + 3
 *   beta: factor
 * Refuses:
 *   2 G7231_CHOICE: limit is neither 142 nor 82
 *   4 G7231_LAG: lag is outside 18..limit + 3
 *   5 G7231_NOT_FINITE: any float given, beta included */
uint32_t g7231_combined_impulse_response(uint32_t limit, const float aq[G7231_FILTER], const float wz[G7231_ORDER],
                                         const float wp[G7231_ORDER], uint32_t lag, float beta,
                                         float out[G7231_SUBFRAME]);

/* Code rows of one's own. The functions above have the built-in code rows. Those
 * below are lent theirs, which must be the numbers that g7231_load_rows stored, not
 * altered since, and the same at both ends of a line. Then the ends come together
 * again after losses exactly as with the built-in rows, which pass the same check.
 * Lent rows are not checked again at each call: any other 2,560 numbers give defined
 * answers, and no such promise. With greater ones a set may grow until it is
 * refused, so that the line need not come together again. */

/* Code rows from the bytes of a file: notes of any content, which are not looked at;
 * 2,560 signed numbers of 16 bits, the rows of bands 0, 1 and 2 in order; and two
 * numbers of 32 bits, 5,128, which is the distance from the file's end back to the
 * first row, and 2,560, the count. Each number has its low byte first, and may start
 * at an odd place. The file has at most 32,768 bytes, and so the notes 27,640.
 * Has no bare form.
 * Takes:
 *   file: row file, 5,128 bytes, and the notes before them
 * Makes:
 *   rows: 2,560 numbers
 * Refuses:
 *   1 G7231_LENGTH: rows_len is not 2,560; the file is not looked at
 *   10 G7231_ROW_FILE: len is above 32,768 or below 5,128, the distance is not
 *     5,128, or the count is not 2,560
 *   11 G7231_ROW_NUMBER: any of the rows' numbers is outside -8,192..8,192 */
uint32_t g7231_load_rows(const uint8_t *file, size_t len, int16_t *rows, size_t rows_len);

/* Where a row lies in lent rows: *count numbers from rows[*start] on.
 * Has no bare form.
 * Takes:
 *   rows: code rows, 2,560 numbers
 *   band: band, 0 to 2
 *   index: row index, 0 to 255
 * Refuses:
 *   1 G7231_LENGTH: rows_len is not 2,560
 *   2 G7231_CHOICE: the band is above 2, or the index above 255 */
uint32_t g7231_row(const int16_t *rows, size_t rows_len, uint32_t band, uint32_t index, size_t *start, size_t *count);

/* What g7231_quantise_lsp_freq does, over lent rows.
 * Takes:
 *   rows: code rows, 2,560 numbers
 *   p: frequencies
 *   prev: frequencies, the last call's set, or the resting set
 * Refuses:
 *   1 G7231_LENGTH: rows_len is not 2,560
 *   5 G7231_NOT_FINITE: any of either set
 *   6 G7231_MAGNITUDE: any of either set above 65,536 in magnitude */
uint32_t g7231_quantise_lsp_freq_in(const int16_t *rows, size_t rows_len, const float p[G7231_ORDER],
                                    const float prev[G7231_ORDER], uint32_t *index, float set[G7231_ORDER]);

/* What g7231_decode_lsp_freq does, over lent rows.
 * Takes:
 *   rows: code rows, 2,560 numbers
 *   index: index, 24 bits
 *   prev: frequencies, the last call's set, or the resting set
 * Refuses:
 *   1 G7231_LENGTH: rows_len is not 2,560
 *   9 G7231_INDEX: the index is above 16,777,215
 *   5 G7231_NOT_FINITE: any of the previous set
 *   6 G7231_MAGNITUDE: any of it above 65,536 in magnitude */
uint32_t g7231_decode_lsp_freq_in(const int16_t *rows, size_t rows_len, uint32_t index, const float prev[G7231_ORDER],
                                  float set[G7231_ORDER]);

/* What g7231_code_frame does, over lent rows. What it says of the decoder holds with
 * g7231_decode_lsp_freq_in over the same rows.
 * Takes:
 *   rows: code rows, 2,560 numbers
 *   coder.set: frequencies, moved on
 *   coder.lines: cosines, moved on
 *   coder.x_mem, coder.f_mem, coder.weighted: speech, moved on
 *   samples: speech, 360 samples, of which the frame is the 240 from place 60 on
 *   spacing_hz: spacing, 0 to 400 Hz
 * Refuses:
 *   1 G7231_LENGTH: rows_len is not 2,560
 *   8 G7231_FRAME_LENGTH: len is not 360
 *   5 G7231_NOT_FINITE: any of coder->set
 *   6 G7231_MAGNITUDE: any of coder->set above 65,536 in magnitude, or of the set
 *     that the index stands for, which loaded rows never make so large
 *   5 G7231_NOT_FINITE: the spacing
 *   6 G7231_MAGNITUDE: the spacing below 0 or above 400
 *   5 G7231_NOT_FINITE: any other of the coder, or any sample that the weighting
 *     filter makes */
uint32_t g7231_code_frame_in(const int16_t *rows, size_t rows_len, g7231_coder *coder, const int16_t *samples,
                             size_t len, float spacing_hz, g7231_frame *frame);

#ifdef __cplusplus
}
#endif

#endif
