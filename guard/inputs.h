/* Valid inputs of any door, fixed by a seed. */
#ifndef INPUTS_H
#define INPUTS_H

#include "table.h"

/* Numbers that a seed fixes (splitmix64). */
struct random {
    uint64_t state;
};

/* A stream of its own for each seed, door and turn, so that any turn can be made again alone, whatever doors there are
 * besides. */
struct random random_of(uint64_t seed, const struct door *door, uint64_t turn);
uint64_t random_next(struct random *random);
uint32_t random_bits(struct random *random);
size_t random_below(struct random *random, size_t n);
double random_between(struct random *random, double a, double b);

/* A file of code rows, as the header has it: notes, the numbers of the rows, and two numbers of four bytes. */
enum {
    ROW_NUMBERS = 2560,
    ROW_LIMIT = 8192, /* the greatest magnitude of a number */
    FILE_ROWS = 2 * ROW_NUMBERS,
    FILE_END = 8,
    FILE_LEAST = FILE_ROWS + FILE_END,
    FILE_MOST = 32768
};

/* The limits of a caller's pitch lags, and how many more samples than that a caller looks back on. */
enum { LIMIT_LOGGER = 142, LIMIT_GATEWAY = 82, LIMIT_MORE = 3 };

/* Room for a buffer, aligned for any element; a file that is too long has room too. */
enum { ROOM_BYTES = FILE_MOST + 4096 };
union room {
    double align;
    uint32_t word[ROOM_BYTES / 4]; /* the bits of singles */
    unsigned char byte[ROOM_BYTES];
};

/* The inputs of one call: the elements of each buffer that is read, and the values. */
struct given {
    size_t count[MOST];
    union room room[MOST];
    union argument value[MOST];
};

/* A call as a coder makes it: speech, stable filters, ordered lines. */
void make_valid(const struct door *door, struct random *random, struct given *given);

/* The arguments of a call on the inputs where they stand; what is only written goes to `made`. */
void lay_out(const struct door *door, struct given *given, union room made[MOST], union argument argument[MOST]);

/* Puts a number into an element, or a value, of any kind but a struct; a whole number is held within the kind's range. */
void put_number(const struct parameter *parameter, union room *room, size_t at, double x);
void put_value(const struct parameter *parameter, union argument *value, double x);

/* How many elements of a buffer a call may look at: all of them, but of the history of a filter memory as many as its limit
 * of lags has in use. */
size_t in_use(const struct door *door, const struct given *given, unsigned at);

/* A parameter by its role, or a door by its name without g7231_; -1 where there is none. */
int parameter_of(const struct door *door, enum role role);
int door_named(const char *name);

static inline uint32_t word_of(float x)
{
    union {
        float single;
        uint32_t word;
    } pun = {.single = x};
    return pun.word;
}

static inline float single_of(uint32_t word)
{
    union {
        uint32_t word;
        float single;
    } pun = {.word = word};
    return pun.single;
}

#endif
