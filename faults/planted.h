/* Faulty doors, which the harness must report. Each has the parameters of the door that it stands in for. */
#ifndef PLANTED_H
#define PLANTED_H

#include "door.h"

struct planted {
    const char *name;
    const char *instead_of; /* the door */
    call *function;         /* in place of the bare form */
    int both;               /* and of the safe one */
    const char *reported;   /* what the report must say */
};

enum { PLANTED = 21 };
extern const struct planted planted[PLANTED];

#endif
