/* Calls with an input that starts where another buffer of floats starts. A door with such buffers makes its whole answer
 * before it writes, so the bits must be those of buffers apart; and a refused call must leave the shared array alone.
 * This is what include/g7231.h allows, and no more. */
#include <stdio.h>
#include <stdlib.h>
#include <string.h>

#include "damage.h"

/* A signalling NaN. */
enum { FILLER = 0x7fa01234 };

struct answer {
    uint32_t status;
    union room room[MOST];
};

/* The words that a buffer takes, a part of one included. */
static size_t words_of(const struct given *given, const struct door *door, unsigned at)
{
    return (given->count[at] * door->parameter[at].width + 3) / 4;
}

/* Calls with the buffers of the set `sharing` at the place of the buffer `with`. */
static void ask(const struct door *door, call *function, const struct given *given, unsigned sharing, unsigned with,
                struct answer *answer)
{
    union argument argument[MOST];
    for (unsigned i = 0; i < door->count; i++) {
        argument[i] = given->value[i];
        if (!is_buffer(&door->parameter[i])) continue;
        for (size_t n = 0; n < words_of(given, door, i); n++) answer->room[i].word[n] = FILLER;
        argument[i].place = answer->room[i].byte;
    }
    for (unsigned i = 0; i < door->count; i++) {
        const struct parameter *parameter = &door->parameter[i];
        if (!is_buffer(parameter)) continue;
        if (sharing >> i & 1) argument[i].place = answer->room[with].byte;
        if (parameter->way != MADE) memcpy(argument[i].place, given->room[i].byte, given->count[i] * parameter->width);
    }
    answer->status = function(argument);
}

/* The same status, and everything that is written the same; after a refusal nothing is. */
static int same(const struct door *door, const struct given *given, unsigned sharing, unsigned with,
                const struct answer *apart, const struct answer *shared)
{
    if (apart->status != shared->status) return 0;
    for (unsigned i = 0; i < door->count; i++) {
        const struct parameter *parameter = &door->parameter[i];
        const size_t bytes = given->count[i] * parameter->width;
        if (apart->status == 0) {
            if (is_written(parameter) && memcmp(apart->room[i].byte, shared->room[i].byte, bytes) != 0) return 0;
        } else if (is_buffer(parameter)) {
            const union room *room = &shared->room[sharing >> i & 1 ? with : i];
            if (parameter->way != MADE && memcmp(room->byte, given->room[i].byte, bytes) != 0) return 0;
            if (parameter->way == MADE && i != with)
                for (size_t n = 0; n < words_of(given, door, i); n++)
                    if (room->word[n] != FILLER) return 0;
        }
    }
    return 1;
}

/* How many inputs come out otherwise. */
static unsigned long differing(const struct door *door, unsigned sharing, unsigned with, unsigned long turns)
{
    static struct given given;
    static struct answer apart, shared;
    unsigned long count = 0;
    for (unsigned long turn = 0; turn < turns; turn++) {
        struct random random = random_of(1, door, turn);
        if (turn % 2) make_damaged(door, &random, &given);
        else make_valid(door, &random, &given);
        /* what is given in one array starts alike */
        const unsigned given_here = sharing | (door->parameter[with].way != MADE ? 1u << with : 0);
        unsigned longest = MOST;
        for (unsigned i = 0; i < door->count; i++) {
            if (given_here >> i & 1 && (longest == MOST || given.count[i] > given.count[longest])) longest = i;
            /* a length that no buffer has is no case of this */
            if (door->parameter[i].many == LENGTH) given.value[i].size = given.count[i - 1];
        }
        for (unsigned i = 0; i < door->count; i++)
            if (given_here >> i & 1 && i != longest)
                memcpy(given.room[i].byte, given.room[longest].byte, given.count[i] * sizeof(float));
        ask(door, door->bare, &given, 0, 0, &apart);
        /* both forms, each over valid and over damaged inputs */
        ask(door, turn / 2 % 2 ? door->bare : door->safe, &given, sharing, with, &shared);
        if (!same(door, &given, sharing, with, &apart, &shared)) count++;
    }
    return count;
}

static int is_float_array(const struct parameter *parameter)
{
    return is_buffer(parameter) && parameter->element == F32;
}

static int is_input(const struct parameter *parameter) { return is_read(parameter) && is_float_array(parameter); }

/* A door that writes while it still reads: interpolate_lsp with its lines turned about. */
static uint32_t hasty(const union argument *argument)
{
    const float *prev = argument[1].place;
    volatile float *out = argument[3].place;
    for (int i = 0; i < 10; i++) out[i] = prev[9 - i];
    return 0;
}

static int misses_planted(unsigned long turns)
{
    const int number = door_named("interpolate_lsp");
    struct door door = doors[number];
    door.bare = door.safe = hasty;
    const unsigned long count = differing(&door, 1u << 1, 3, turns);
    printf("planted: writes while it reads: differs on %lu of %lu inputs%s\n", count, turns, count ? "" : ": NOT SEEN");
    return count == 0;
}

int main(int words, char **word)
{
    static const char help[] = "alias [N]: calls with an input that starts where another buffer starts, N inputs for each\n"
                               "pair (default 4000), and with all inputs where each other buffer starts.\n"
                               "Exit status: 0 the bits are those of buffers apart; 1 not; 2 bad usage.\n";
    unsigned long turns = 4000;
    if (words == 2 && (strcmp(word[1], "--help") == 0 || strcmp(word[1], "-h") == 0)) return fputs(help, stdout), 0;
    if (words >= 2) {
        char *end;
        turns = strtoul(word[1], &end, 10);
        if (words > 2 || *end || turns == 0 || word[1][0] == '-') return fputs(help, stderr), 2;
    }
    int faults = misses_planted(turns);
    for (int number = 0; number < DOORS; number++) {
        const struct door *door = &doors[number];
        unsigned ways = 0;
        for (unsigned with = 0; with < door->count; with++) {
            if (!is_float_array(&door->parameter[with])) continue;
            unsigned every = 0;
            for (unsigned one = 0; one <= door->count; one++) {
                /* each input alone, and at last all of them */
                const int last = one == door->count;
                if (!last && (one == with || !is_input(&door->parameter[one]))) continue;
                const unsigned sharing = last ? every : 1u << one;
                every |= sharing;
                if (last && (every & (every - 1)) == 0) continue; /* none, or the one that was tried */
                const unsigned long count = differing(door, sharing, with, turns);
                ways++;
                if (count == 0) continue;
                faults++;
                printf("FAILED: g7231_%s: %s in the array of %s: differs on %lu of %lu inputs\n", door->name,
                       last ? "all inputs" : door->parameter[one].name, door->parameter[with].name, count, turns);
            }
        }
        printf("%-28s inputs in another buffer's array in %u ways, %lu inputs each\n", door->name, ways, turns);
    }
    printf("%s\n", faults ? "FAILED" : "the bits are those of buffers apart in every way");
    return faults ? 1 : 0;
}
