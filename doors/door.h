/* What the table of doors is made of; `doors/make table` prints the table. A test can then call any door on arguments
 * that it has laid out itself. */
#ifndef DOOR_H
#define DOOR_H

#include <stddef.h>
#include <stdint.h>

/* How a parameter is lent. */
enum way {
    READ,  /* lent and only read */
    KEPT,  /* read, and moved on for the next call */
    MADE,  /* only written */
    VALUE  /* by value */
};

/* What a parameter, or an element of its buffer, is. */
enum element { U8, I16, U16, I32, U32, SIZE, F32, F64, STRUCT };

/* How many elements there are. */
enum many {
    ONE,
    FIXED,
    SLICE, /* as many as the next parameter says */
    LENGTH /* the number of elements of the slice before it */
};

/* What a valid call has in a parameter: the words of the header's `Takes:`. guard/inputs.c makes each. */
enum role {
    NONE,        /* answers, and lengths */
    SPEECH,      /* pulses and noise through two resonances */
    FILTER,      /* a stable filter with its leading 1 */
    TAPS,        /* a stable filter without it */
    COSINES,     /* ten cosines that fall */
    FREQUENCIES, /* ten frequencies that rise */
    INDEX,       /* an index of the quantiser: 24 bits */
    CODE_ROWS,   /* the quantiser's rows, as a load leaves them */
    ROW_FILE,    /* a file of code rows, with notes or none */
    BAND,        /* a band of the rows */
    ROW_INDEX,   /* a row of a band */
    SPACING,     /* a distance of lines in Hz */
    CHOICE,      /* a subframe, or more */
    HALF,        /* a half of a frame */
    PLACE,       /* where a subframe starts in the weighted speech */
    LAG_LIMIT,   /* the limit of a caller's pitch lags */
    PITCH_LAG,   /* a lag of the pitch search */
    LAG,         /* a lag of the harmonic filter */
    FACTOR,      /* a factor of the harmonic filter */
    ANY          /* any bits */
};

struct parameter {
    const char *name;
    enum way way;
    enum element element;
    unsigned width; /* bytes of an element */
    enum many many;
    unsigned count; /* elements; of a slice, enough for a valid call */
    enum role role;
};

union argument {
    void *place; /* of what is lent, and of a struct by value */
    size_t size;
    uint32_t number; /* U8, U16, U32 */
    int32_t sign;    /* I16, I32 */
    float single;
    double twice;
};

typedef uint32_t call(const union argument *);

/* What a safe call answers that altered a number of a struct which the bare form takes by value: no status. */
#define ALTERED UINT32_MAX

struct door {
    const char *name; /* without g7231_ */
    unsigned count;
    const struct parameter *parameter;
    const uint32_t *refusal; /* in the order of the checks; ends with 0 */
    call *safe;
    call *bare; /* the same as safe where a door has one form only */
};

/* Whether a parameter is memory: what is lent, and a struct by value, which the table's call reads from its place. */
static inline int is_buffer(const struct parameter *parameter)
{
    return parameter->way != VALUE || parameter->element == STRUCT;
}

/* Memory that is only read. */
static inline int is_read(const struct parameter *parameter)
{
    return is_buffer(parameter) && (parameter->way == READ || parameter->way == VALUE);
}

/* Memory that is written. */
static inline int is_written(const struct parameter *parameter)
{
    return parameter->way == KEPT || parameter->way == MADE;
}

/* `doors/make table.h` has the table's declaration, with DOORS, their number, MOST, the greatest number of parameters,
 * and STATUSES, the number of statuses. */

#endif
