/* Inputs that a caller should not give, and may. */
#ifndef DAMAGE_H
#define DAMAGE_H

#include "inputs.h"

/* The inputs of a turn: valid ones, valid ones with bits flipped, with a limit put in, all limits, or random bits;
 * lengths, places, lags, choices and limits of lags over and under their bounds; files with a number out of bounds, with
 * another end, too long and too short. */
void make_damaged(const struct door *door, struct random *random, struct given *given);

#endif
