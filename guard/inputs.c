#include "inputs.h"

#include <stdio.h>
#include <stdlib.h>
#include <string.h>

struct random random_of(uint64_t seed, const struct door *door, uint64_t turn)
{
    struct random random = {seed};
    uint64_t name = 0;
    for (const char *c = door->name; *c; c++) name = name * 31 + (unsigned char)*c;
    random.state = random_next(&random) ^ name * 0xd1342543de82ef95u;
    random.state = random_next(&random) ^ turn * 0xd1342543de82ef95u;
    return random;
}

uint64_t random_next(struct random *random)
{
    uint64_t z = random->state += 0x9e3779b97f4a7c15u;
    z = (z ^ (z >> 30)) * 0xbf58476d1ce4e5b9u;
    z = (z ^ (z >> 27)) * 0x94d049bb133111ebu;
    return z ^ (z >> 31);
}

uint32_t random_bits(struct random *random) { return (uint32_t)(random_next(random) >> 32); }

size_t random_below(struct random *random, size_t n) { return (size_t)(((random_next(random) >> 32) * n) >> 32); }

double random_between(struct random *random, double a, double b)
{
    return a + (b - a) * ((double)(random_next(random) >> 11) / 9007199254740992.0);
}

/* Pulses a period apart and some noise through two resonances. */
static void speech(struct random *random, double *out, size_t count)
{
    const size_t period = 18 + random_below(random, 125);
    const double noise = random_between(random, 0, 0.5);
    double level = random_between(random, 0.001, 1);
    for (size_t n = random_below(random, 16); n > 0; n--) level *= 2;
    double c[2], r[2], y[2][2] = {{0, 0}, {0, 0}};
    for (int i = 0; i < 2; i++) {
        r[i] = random_between(random, 0.6, 0.97);
        c[i] = random_between(random, -0.5, 0.99);
    }
    const size_t phase = random_below(random, period);
    for (size_t n = 0; n < count; n++) {
        double x = ((n + phase) % period == 0 ? 1 : 0) + noise * random_between(random, -1, 1);
        for (int i = 0; i < 2; i++) {
            x += 2 * r[i] * c[i] * y[i][0] - r[i] * r[i] * y[i][1];
            y[i][1] = y[i][0];
            y[i][0] = x;
        }
        out[n] = level * x;
    }
}

/* A stable filter, stepped up from its reflections. */
static void filter(struct random *random, double a[11])
{
    const double most = random_between(random, 0.1, 0.97);
    memset(a, 0, 11 * sizeof a[0]);
    a[0] = 1;
    for (int m = 1; m <= 10; m++) {
        const double k = random_between(random, -most, most);
        double next[11];
        memcpy(next, a, sizeof next);
        for (int i = 1; i < m; i++) next[i] = a[i] + k * a[m - i];
        next[m] = k;
        memcpy(a, next, sizeof next);
    }
}

/* Ten numbers from a to b that rise. */
static void rising(struct random *random, double a, double b, double line[10])
{
    for (int i = 0; i < 10; i++) {
        const double x = random_between(random, a, b);
        int at = i;
        for (; at > 0 && line[at - 1] > x; at--) line[at] = line[at - 1];
        line[at] = x;
    }
}

/* Numbers of code rows. */
static void rows(struct random *random, double *x, size_t count)
{
    for (size_t i = 0; i < count; i++) x[i] = (double)random_below(random, 2 * ROW_LIMIT + 1) - ROW_LIMIT;
}

/* A file of code rows byte by byte, with any notes before them. */
static void row_file(struct random *random, double *x, size_t count)
{
    static const unsigned char end[FILE_END] = {FILE_LEAST & 0xff,  FILE_LEAST >> 8,  0, 0,
                                                ROW_NUMBERS & 0xff, ROW_NUMBERS >> 8, 0, 0};
    static double number[ROW_NUMBERS];
    const size_t notes = count - FILE_LEAST;
    rows(random, number, ROW_NUMBERS);
    for (size_t i = 0; i < notes; i++) x[i] = (double)random_below(random, 256);
    for (size_t i = 0; i < ROW_NUMBERS; i++) {
        const unsigned pair = (unsigned)(int)number[i];
        x[notes + 2 * i] = pair & 0xff;
        x[notes + 2 * i + 1] = pair >> 8 & 0xff;
    }
    for (size_t i = 0; i < FILE_END; i++) x[notes + FILE_ROWS + i] = end[i];
}

/* How long a file is: with no notes, some, as many as there may be. */
static size_t row_file_length(struct random *random)
{
    const size_t most = FILE_MOST - FILE_LEAST, way = random_below(random, 8);
    return FILE_LEAST + (way == 0 ? 0 : way == 1 ? most : random_below(random, way < 5 ? 256 : most + 1));
}

/* What a role asks for, as numbers, in a call with such a limit of lags. There is no default: the compiler names a role
 * that has no maker. */
static void make_numbers(enum role role, struct random *random, size_t limit, double *x, size_t count)
{
    const size_t past = limit + LIMIT_MORE;
    double ten[11], power = 1;
    switch (role) {
    case SPEECH: speech(random, x, count); return;
    case FILTER: filter(random, ten); break;
    case TAPS: {
        double all[11];
        filter(random, all);
        const double gamma = random_between(random, 0.4, 1);
        for (int i = 0; i < 10; i++) {
            power *= gamma;
            ten[i] = all[i + 1] * power;
        }
        ten[10] = 0;
        break;
    }
    case COSINES: {
        double lines[10];
        rising(random, -1, 1, lines);
        for (int i = 0; i < 10; i++) ten[i] = lines[9 - i];
        ten[10] = 0;
        break;
    }
    case FREQUENCIES:
        rising(random, 0, 32768, ten);
        ten[10] = 0;
        break;
    case INDEX: x[0] = random_bits(random) >> 8; return;
    case CODE_ROWS: rows(random, x, count); return;
    case ROW_FILE: row_file(random, x, count); return;
    case BAND: x[0] = (double)random_below(random, 3); return;
    case ROW_INDEX: x[0] = (double)random_below(random, 256); return;
    case SPACING: x[0] = random_between(random, 0, 400); return;
    case CHOICE: x[0] = (double)random_below(random, 5); return;
    case HALF: x[0] = (double)random_below(random, 2); return;
    case LAG_LIMIT: x[0] = (double)limit; return;
    case PLACE: x[0] = (double)(past + random_below(random, 385 - 60 - past + 1)); return;
    case PITCH_LAG: x[0] = (double)(18 + random_below(random, limit - 17)); return;
    case LAG: x[0] = (double)(18 + random_below(random, past - 17)); return;
    case FACTOR: x[0] = random_between(random, 0, 0.3125); return;
    case ANY:
    case NONE: return;
    }
    /* a longer buffer has the same ten again */
    for (size_t i = 0; i < count; i++) x[i] = ten[i % (role == FILTER ? 11 : 10)];
}

static double held(double x, double low, double high) { return x < low ? low : x > high ? high : x; }

void put_number(const struct parameter *parameter, union room *room, size_t at, double x)
{
    union {
        uint8_t u8;
        int16_t i16;
        uint16_t u16;
        int32_t i32;
        uint32_t u32;
        size_t size;
        float single;
        double twice;
    } as;
    switch (parameter->element) {
    case U8: as.u8 = (uint8_t)held(x, 0, UINT8_MAX); break;
    case I16: as.i16 = (int16_t)held(x, INT16_MIN, INT16_MAX); break;
    case U16: as.u16 = (uint16_t)held(x, 0, UINT16_MAX); break;
    case I32: as.i32 = (int32_t)held(x, INT32_MIN, INT32_MAX); break;
    case U32: as.u32 = (uint32_t)held(x, 0, UINT32_MAX); break;
    case SIZE: as.size = (size_t)held(x, 0, UINT32_MAX); break;
    case F32: as.single = (float)x; break;
    case F64: as.twice = x; break;
    case STRUCT: return;
    }
    memcpy(room->byte + at * parameter->width, &as, parameter->width);
}

void put_value(const struct parameter *parameter, union argument *value, double x)
{
    switch (parameter->element) {
    case U8:
    case U16:
    case U32: value->number = (uint32_t)held(x, 0, UINT32_MAX); return;
    case I16:
    case I32: value->sign = (int32_t)held(x, INT32_MIN, INT32_MAX); return;
    case SIZE: value->size = (size_t)held(x, 0, UINT32_MAX); return;
    case F32: value->single = (float)x; return;
    case F64: value->twice = x; return;
    case STRUCT: return;
    }
}

/* Any bits: of each byte of a buffer, and of a value. */
static void make_any(const struct parameter *parameter, struct random *random, struct given *given, unsigned i)
{
    const size_t bytes = given->count[i] * parameter->width;
    if (is_buffer(parameter))
        for (size_t n = 0; n < bytes; n++) given->room[i].byte[n] = (unsigned char)random_bits(random);
    else given->value[i].size = (size_t)random_next(random);
}

void make_valid(const struct door *door, struct random *random, struct given *given)
{
    static double x[ROOM_BYTES];
    /* drawn first: lags and places are valid for it */
    const int gateway = parameter_of(door, LAG_LIMIT) >= 0 && random_below(random, 2);
    const size_t limit = gateway ? LIMIT_GATEWAY : LIMIT_LOGGER;
    for (unsigned i = 0; i < door->count; i++) {
        const struct parameter *parameter = &door->parameter[i];
        memset(&given->value[i], 0, sizeof given->value[i]);
        given->count[i] = is_buffer(parameter) ? parameter->count : 0;
        if (parameter->role == ROW_FILE) given->count[i] = row_file_length(random);
        if (given->count[i] * parameter->width > ROOM_BYTES) {
            fprintf(stderr, "%s of g7231_%s: no room: enlarge ROOM_BYTES in guard/inputs.h\n", parameter->name, door->name);
            exit(3);
        }
        if (parameter->many == LENGTH) {
            given->value[i].size = given->count[i - 1];
        } else if (parameter->role == ANY) {
            make_any(parameter, random, given, i);
        } else if (parameter->way != MADE) {
            const size_t count = is_buffer(parameter) ? given->count[i] : 1;
            make_numbers(parameter->role, random, limit, x, count);
            for (size_t n = 0; n < count && is_buffer(parameter); n++) put_number(parameter, &given->room[i], n, x[n]);
            if (!is_buffer(parameter)) put_value(parameter, &given->value[i], x[0]);
        }
    }
}

void lay_out(const struct door *door, struct given *given, union room made[MOST], union argument argument[MOST])
{
    for (unsigned i = 0; i < door->count; i++) {
        const struct parameter *parameter = &door->parameter[i];
        argument[i] = given->value[i];
        if (is_buffer(parameter)) argument[i].place = parameter->way == MADE ? made[i].byte : given->room[i].byte;
    }
}

size_t in_use(const struct door *door, const struct given *given, unsigned at)
{
    const int limit = parameter_of(door, LAG_LIMIT);
    if (limit < 0 || strcmp(door->parameter[at].name, "p_hist") != 0 || door->parameter[at].way != KEPT)
        return given->count[at];
    return given->value[limit].number == LIMIT_GATEWAY ? LIMIT_GATEWAY + LIMIT_MORE : given->count[at];
}

int parameter_of(const struct door *door, enum role role)
{
    for (unsigned i = 0; i < door->count; i++)
        if (door->parameter[i].role == role) return (int)i;
    return -1;
}

int door_named(const char *name)
{
    for (int i = 0; i < DOORS; i++)
        if (strcmp(doors[i].name, name) == 0) return i;
    return -1;
}
