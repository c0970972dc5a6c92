#include "damage.h"

#include <string.h>

#define PICK(random, list) ((list)[random_below(random, sizeof(list) / sizeof *(list))])

static const size_t lengths[] = {0,   1,   59,  60,  61,  85,  145, 179, 180, 181, 204,  205,  206,  264,  265, 266,
                                 324, 325, 326, 359, 360, 361, 384, 385, 386, 1024, 2047, 2048, 2559, 2560, 2561};

/* Of a file of code rows: none of its last numbers, a part of them, and what is just enough and just too much. */
static const size_t file_lengths[] = {
    0, 1, FILE_END - 1, FILE_END, FILE_ROWS, FILE_LEAST - 1, FILE_LEAST, FILE_LEAST + 1, FILE_MOST - 1, FILE_MOST,
    FILE_MOST + 1, FILE_MOST + 2, ROOM_BYTES,
};

/* Of a code row's number: the greatest and the least that are taken, and what lies beyond. */
static const int row_limits[] = {ROW_LIMIT, ROW_LIMIT + 1, INT16_MAX, -ROW_LIMIT, -ROW_LIMIT - 1, INT16_MIN};

static const size_t huge[] = {SIZE_MAX,     SIZE_MAX / 2, SIZE_MAX / 4 + 1, (size_t)1 << 62,
                              SIZE_MAX - 3, 1u << 31,     (size_t)1 << 32,  ((size_t)1 << 32) + 180};

static const size_t sizes[] = {0,   1,   2,   3,   4,   5,   84,  85,  86,  144, 145, 146,  203,
                               204, 205, 206, 264, 265, 266, 324, 325, 326, 385, 1988, 1989,
                               SIZE_MAX, SIZE_MAX - 59, SIZE_MAX - 60, SIZE_MAX - 84, SIZE_MAX - 144, SIZE_MAX / 2,
                               SIZE_MAX / 120};

static const uint32_t numbers[] = {
    0,   1,     2,      3,      7,       8,     9,          17,         18,         19,
    81,  82,    83,     84,     85,      86,    338,        398,        0x80000052, 0x10052,
    60,  141,   142,    143,    144,     145,   146,        255,        256,        359,
    360, 361,   0x7fff, 0x8000, 0xffff,  66051, 0x7fffffff, 0x80000000, 0xffffffff, 0xfffffff,
    0xffffff, 0x1000000};

/* Zeros, the least and greatest subnormal and normal numbers, powers, bounds of the refusals and what lies beside them,
 * infinities, quiet and signalling NaNs. */
static const uint32_t singles[] = {
    0x00000000, 0x80000000, 0x00000001, 0x80000001, 0x007fffff, 0x807fffff, 0x00800000, 0x80800000, 0x3f800000,
    0xbf800000, 0x3f800001, 0x3f7fffff, 0x7f7fffff, 0xff7fffff, 0x5f000000, 0xdf000000, 0x47800000, 0x47800001,
    0xc7800000, 0xc7800001, 0x43c80000, 0x43c80001, 0x4f000000, 0x4b800000, 0x3ea00000, 0x20000000, 0x1a000000,
};
static const uint32_t unfit[] = {0x7f800000, 0xff800000, 0x7fc00000, 0xffc00001,
                                 0x7f800001, 0xff800001, 0x7fa01234, 0xffbfffff};

static uint32_t limit(struct random *random)
{
    return random_below(random, 8) == 0 ? PICK(random, unfit) : PICK(random, singles);
}

/* Puts a limit of its kind into an element. A double is a single's limit, or a double's own bits; of a struct each byte
 * is set by itself. */
static void put_limit(const struct parameter *parameter, struct random *random, struct given *given, unsigned at, size_t n,
                      uint32_t single)
{
    static const unsigned char bytes[] = {0, 1, 0x7f, 0x80, 0xff};
    unsigned char *const place = given->room[at].byte + n * parameter->width;
    const double twice = single_of(single);
    const uint64_t own = (uint64_t)single << 32 | single;
    switch (parameter->element) {
    case F32: memcpy(place, &single, sizeof single); return;
    case F64: memcpy(place, random_below(random, 2) ? (const void *)&twice : (const void *)&own, sizeof twice); return;
    case U8:
    case I16:
    case U16:
    case I32:
    case U32:
    case SIZE: {
        const uint64_t number = parameter->element == SIZE ? PICK(random, sizes) : PICK(random, numbers);
        memcpy(place, &number, parameter->width);
        return;
    }
    case STRUCT:
        for (size_t i = 0; i < parameter->width; i++) place[i] = PICK(random, bytes);
        return;
    }
}

/* Makes a slice longer, by repeating it, or shorter. */
static void set_length(const struct parameter *parameter, struct given *given, unsigned at, size_t length)
{
    unsigned char *const byte = given->room[at].byte;
    const size_t had = given->count[at] * parameter->width;
    if (length * parameter->width > ROOM_BYTES) length = ROOM_BYTES / parameter->width;
    for (size_t n = had; n < length * parameter->width; n++) byte[n] = had ? byte[n - had] : 0;
    given->count[at] = length;
    given->value[at + 1].size = length;
}

/* Makes a file longer or shorter by its notes: its end stays as it is. */
static void set_notes(struct given *given, unsigned at, size_t length)
{
    unsigned char *const byte = given->room[at].byte;
    const size_t had = given->count[at], kept = had < length ? had : length;
    memmove(byte + length - kept, byte + had - kept, kept);
    given->count[at] = length;
    given->value[at + 1].size = length;
}

/* Turns bytes about. */
static void turn_about(unsigned char *byte, size_t count)
{
    for (size_t i = 0; i < count / 2; i++) {
        const unsigned char one = byte[i];
        byte[i] = byte[count - 1 - i];
        byte[count - 1 - i] = one;
    }
}

/* Damages a file of code rows in one way, or puts a limit into it that is taken. */
static void damage_file(const struct parameter *parameter, struct random *random, struct given *given, unsigned at)
{
    enum { NUMBER, BYTE, END_BIT, END_SWAPPED, END_HIGH_FIRST, NOTES, CUT, LENGTHENED, WAYS };
    if (given->count[at] < FILE_LEAST) return;
    unsigned char *const end = given->room[at].byte + given->count[at] - FILE_END, *const rows = end - FILE_ROWS;
    const size_t way = random_below(random, WAYS);
    if (way == NUMBER) {
        const size_t places[] = {0, ROW_NUMBERS - 1, random_below(random, ROW_NUMBERS)}, place = PICK(random, places);
        const int number = PICK(random, row_limits);
        rows[2 * place] = (unsigned char)(number & 0xff);
        rows[2 * place + 1] = (unsigned char)(number >> 8 & 0xff);
    }
    if (way == BYTE) rows[random_below(random, FILE_LEAST)] = (unsigned char)random_bits(random);
    if (way == END_BIT) end[random_below(random, FILE_END)] ^= (unsigned char)(1u << random_below(random, 8));
    /* the two numbers turned about are the second and the first, each turned about */
    if (way == END_SWAPPED) turn_about(end, FILE_END);
    if (way == END_SWAPPED || way == END_HIGH_FIRST)
        for (size_t i = 0; i < FILE_END; i += 4) turn_about(end + i, 4);
    if (way == NOTES) set_notes(given, at, PICK(random, file_lengths));
    if (way == CUT) set_length(parameter, given, at, given->count[at] - 1 - random_below(random, FILE_END));
    if (way == LENGTHENED) set_length(parameter, given, at, given->count[at] + 1 + random_below(random, FILE_END));
}

/* Whether a door refuses a slice that is longer by one element: then the header has it refuse every length that no memory
 * has before it reads. */
static int is_exact(const struct door *door, unsigned at)
{
    static struct given given;
    static union room made[MOST];
    static int known[DOORS][MOST]; /* 1 no, 2 yes */
    const int number = door_named(door->name);
    if (known[number][at]) return known[number][at] == 2;
    struct random random = random_of(1, door, 0);
    union argument argument[MOST];
    make_valid(door, &random, &given);
    set_length(&door->parameter[at], &given, at, given.count[at] + 1);
    lay_out(door, &given, made, argument);
    known[number][at] = doors[number].bare(argument) != 0 ? 2 : 1;
    return known[number][at] == 2;
}

/* A length no memory has, in a call that is refused before a sample is read. */
static void set_huge(const struct door *door, struct random *random, struct given *given, unsigned at)
{
    const int half = parameter_of(door, HALF), pitch = parameter_of(door, PITCH_LAG);
    if (half < 0 && pitch < 0 && !is_exact(door, at)) return;
    set_length(&door->parameter[at], given, at, 0);
    given->value[at + 1].size = PICK(random, huge);
    if (half >= 0) given->value[half].size = 2 + random_below(random, 9);
    if (pitch >= 0) given->value[pitch].number = random_below(random, 2) ? 17 : 143;
}

static void disturb_value(const struct parameter *parameter, struct random *random, union argument *value)
{
    switch (parameter->element) {
    case SIZE: value->size = PICK(random, sizes); return;
    case U8:
    case U16:
    case U32: value->number = PICK(random, numbers); return;
    case I16:
    case I32: value->sign = (int32_t)PICK(random, numbers); return;
    case F32: value->single = single_of(limit(random)); return;
    case F64: value->twice = single_of(limit(random)); return;
    case STRUCT: return;
    }
}

/* Flips one bit of an element, or of a value. */
static void flip(const struct parameter *parameter, struct random *random, struct given *given, unsigned at)
{
    const size_t bit = random_below(random, 8 * (size_t)parameter->width);
    unsigned char *byte = (unsigned char *)&given->value[at];
    if (is_buffer(parameter)) {
        if (given->count[at] == 0) return;
        byte = given->room[at].byte + random_below(random, given->count[at]) * parameter->width;
    }
    byte[bit / 8] ^= (unsigned char)(1u << bit % 8);
}

void make_damaged(const struct door *door, struct random *random, struct given *given)
{
    enum { VALID, FLIPPED, ONE_LIMIT, LIMITS, RANDOM, WAYS };
    make_valid(door, random, given);
    const size_t way = random_below(random, WAYS);
    for (unsigned i = 0; i < door->count; i++) {
        const struct parameter *parameter = &door->parameter[i];
        if (parameter->many == SLICE && random_below(random, 4) == 0) {
            /* beside the length that is enough, or any */
            const size_t beside = parameter->count + 1 - random_below(random, 3);
            set_length(parameter, given, i, random_below(random, 2) ? beside : PICK(random, lengths));
        }
        if (parameter->way == MADE || parameter->many == LENGTH) continue;
        if (!is_buffer(parameter)) {
            if (way != VALID && random_below(random, 3) == 0) disturb_value(parameter, random, &given->value[i]);
            continue;
        }
        if (parameter->role == ROW_FILE && way != LIMITS && way != RANDOM && random_below(random, 2))
            damage_file(parameter, random, given, i);
        for (size_t n = 0; n < given->count[i] && way == LIMITS; n++)
            put_limit(parameter, random, given, i, n, PICK(random, singles));
        for (size_t n = 0; n < given->count[i] * parameter->width && way == RANDOM; n += 4) {
            const uint32_t bits = random_bits(random);
            memcpy(given->room[i].byte + n, &bits, sizeof bits);
        }
        if ((way == LIMITS || way == RANDOM) && given->count[i] > 0 && random_below(random, 4) == 0)
            put_limit(parameter, random, given, i, random_below(random, given->count[i]), limit(random));
    }
    for (size_t n = way == FLIPPED || way == ONE_LIMIT ? 1 + random_below(random, 8) : 0; n > 0; n--) {
        const unsigned at = (unsigned)random_below(random, door->count);
        const struct parameter *parameter = &door->parameter[at];
        if (parameter->way == MADE || parameter->many == LENGTH) continue;
        if (way == FLIPPED) flip(parameter, random, given, at);
        else if (is_buffer(parameter) && given->count[at] > 0)
            put_limit(parameter, random, given, at, random_below(random, given->count[at]), limit(random));
    }
    /* last, so that nothing makes the call valid again */
    for (unsigned i = 0; i < door->count; i++)
        if (door->parameter[i].many == SLICE && random_below(random, 64) == 0) set_huge(door, random, given, i);
}
