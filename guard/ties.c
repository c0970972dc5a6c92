#include "ties.h"

#include <string.h>

/* The samples. */
static uint32_t *words_of(const struct door *door, struct given *given)
{
    return given->room[parameter_of(door, SPEECH)].word;
}

/* The first whole number that a door answers, with one sample replaced. */
static uint32_t lag_with(const struct door *door, struct given *given, size_t at, double sample)
{
    union argument argument[MOST];
    static union room made[MOST];
    uint32_t lag = 0;
    words_of(door, given)[at] = word_of((float)sample);
    lay_out(door, given, made, argument);
    door->bare(argument);
    for (unsigned i = 0; i < door->count; i++)
        if (door->parameter[i].way == MADE && door->parameter[i].element == U32) lag = made[i].word[0];
    return lag;
}

/* Halves the way between two values of a sample that give two lags, down to neighbours, and leaves the one or the
 * other; 0 where both give the same lag. */
static int halve(const struct door *door, struct given *given, size_t at, double low, double high, int side)
{
    const uint32_t lag = lag_with(door, given, at, low);
    if (lag_with(door, given, at, high) == lag) return 0;
    for (;;) {
        const double middle = (float)((low + high) / 2);
        if (middle == low || middle == high) break;
        if (lag_with(door, given, at, middle) == lag) low = middle;
        else high = middle;
    }
    words_of(door, given)[at] = word_of((float)(side ? high : low));
    return 1;
}

void make_tie(const struct door *door, struct random *random, struct given *given)
{
    if (strcmp(door->name, "open_loop_pitch") != 0) return;
    const size_t past = given->value[parameter_of(door, LAG_LIMIT)].number + LIMIT_MORE;
    const size_t start = past + 120 * given->value[parameter_of(door, HALF)].size;
    uint32_t *const word = words_of(door, given);
    double most = 0;
    for (size_t n = 0; n < start; n++) {
        const double x = single_of(word[n]);
        if (x > most) most = x;
    }
    /* a loud sample brings the lags together, a quiet one has steps fine enough for the last bits */
    for (int tries = 0; tries < 1000; tries++) {
        const size_t loud = start - 1 - random_below(random, 60), quiet = start - 1 - random_below(random, 60);
        if (loud == quiet) continue;
        const uint32_t before = word[loud], other = word[quiet];
        word[quiet] = 0;
        const double reach = random_between(random, 0.1, 4) * most;
        if (halve(door, given, loud, single_of(before), single_of(before) + reach, 0) &&
            halve(door, given, quiet, -most / 1024, most / 1024, (int)random_below(random, 2)))
            return;
        word[loud] = before;
        word[quiet] = other;
    }
}
