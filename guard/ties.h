/* Inputs on the edge between two answers. */
#ifndef TIES_H
#define TIES_H

#include "inputs.h"

/* Brings a valid input of open_loop_pitch so near to a tie of two lags that the last bits of the sums decide. The
 * answer is a whole number, so that a mode shows only there. Other doors' inputs stay as they are. */
void make_tie(const struct door *door, struct random *random, struct given *given);

#endif
