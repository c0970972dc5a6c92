/* The doors of the header beside it, as far as a test needs them. */
#include <string.h>

#include "g7231_bare.h"

uint32_t g7231_unpack(const uint8_t *bytes, size_t len, int16_t *out, size_t out_len)
{
    if (len != 6 || out_len != 3) return G7231_LENGTH;
    for (int i = 0; i < 3; i++) out[i] = (int16_t)(bytes[2 * i] - bytes[2 * i + 1]);
    return G7231_DONE;
}

uint32_t g7231_bare_mix(const int16_t *rows, size_t rows_len, uint8_t a, int16_t b, uint16_t c, int32_t d, double e,
                        g7231_held_state *state, int32_t *sum)
{
    if (rows_len != 7) return G7231_LENGTH;
    if (d == INT32_MIN) return G7231_SUM;
    *sum = rows[6] + a + b + c + d / 4;
    state->sum = e;
    return G7231_DONE;
}

uint32_t g7231_bare_gains(g7231_held_state one, const g7231_held_state two[2], uint16_t gains[3])
{
    gains[0] = (uint16_t)one.gain;
    for (int i = 0; i < 2; i++) gains[i + 1] = (uint16_t)two[i].gain;
    return G7231_DONE;
}

uint32_t g7231_bare_move(float *level, int16_t rows[6], int32_t by, int32_t *total, double each[2])
{
#ifdef ALTERS_AND_REFUSES
    if (by == INT32_MIN) rows[4] ^= 1;
#endif
    if (by == INT32_MIN || by == INT32_MAX) return G7231_SUM;
    if (*level < 0) return G7231_LENGTH;
    *total = rows[0] + rows[5];
    for (int i = 0; i < 2; i++) each[i] = *level * rows[3 * i];
    for (int i = 0; i < 6; i++) rows[i] = (int16_t)(i == 5 ? 7 : rows[i + 1]);
    *level /= 2;
    return G7231_DONE;
}

uint32_t g7231_unroll(const uint8_t *file, size_t len, int16_t *numbers, size_t numbers_len, uint32_t band, uint8_t row,
                      size_t *start, size_t *count)
{
    static const uint8_t end[] = {0x08, 0x14, 0, 0, 0, 0x0a, 0, 0};
    if (len > 32768 || len < 5128 || numbers_len != 2560) return G7231_LENGTH;
    if (memcmp(file + len - 8, end, 8) != 0 || band > 2) return G7231_SUM;
#ifdef PLACES_BEFORE_IT_TESTS
    ++*start;
#endif
    int number[2560];
    for (int i = 0; i < 2560; i++) {
        const uint8_t *pair = file + len - 5128 + 2 * i;
        number[i] = pair[0] + 256 * pair[1] - (pair[1] < 128 ? 0 : 65536);
        if (number[i] < -8192 || number[i] > 8192) return G7231_SUM;
#ifdef STORES_BEFORE_IT_TESTS
        numbers[i] = (int16_t)number[i];
#endif
    }
    for (int i = 0; i < 2560; i++) numbers[i] = (int16_t)number[i];
    *count = band == 2 ? 4 : 3;
    *start = 768 * band + *count * row;
    return G7231_DONE;
}

uint32_t g7231_bare_shift(const int16_t *by, size_t by_len, float *level, int16_t rows[6], const uint8_t *bytes,
                          size_t len, size_t *far)
{
    if (by_len != 5) return G7231_LENGTH;
    if (len != 2) return G7231_SUM;
    for (int i = 0; i < 5; i++) rows[i] = (int16_t)(rows[i + 1] ^ by[i]);
    *level += 1;
    *far = (size_t)bytes[0] << 40 | bytes[1];
    return G7231_DONE;
}

uint32_t g7231_bare_look(float level, const int16_t rows[6], int32_t *last)
{
    *last = level < 1 ? rows[5] : 0;
    return G7231_DONE;
}

uint32_t g7231_bare_new_counter(uint8_t by, uint8_t *step, int16_t *least, double *scale, int32_t sums[2])
{
    *step = by;
    *least = -1;
    *scale = 0.5;
    sums[0] = sums[1] = 0;
    return G7231_DONE;
}

uint32_t g7231_bare_count(uint8_t step, int16_t least, double scale, int32_t sums[2], int32_t *count)
{
    if (!(scale >= 0)) return G7231_SUM;
    sums[0] ^= step;
    sums[1] = sums[1] / 2 + (scale > 1);
    *count = sums[0] < least ? least : sums[0];
    return G7231_DONE;
}
