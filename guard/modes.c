/* The thread's floating-point mode is a hidden input of the doors: shows that it changes the bits of the bare forms and
 * not of the safe ones. `modes --help` says how to call it; guard/run builds and runs it. */
#define _POSIX_C_SOURCE 200809L

#include <signal.h>
#include <stdio.h>
#include <stdlib.h>
#include <string.h>
#include <sys/resource.h>
#include <sys/wait.h>
#include <time.h>
#include <unistd.h>
#include <xmmintrin.h>

#include "inputs.h"
#include "ties.h"

enum { DEFAULT = 0x1f80, FLAGS = 0x3f };

struct mode {
    const char *name;
    const char *brief; /* the head of its column */
    unsigned word;
    enum { SHOWS, STOPS, DEFAULT_ITSELF } kind; /* a bit that changes, an exception that stops the program */
};

/* MXCSR: flags in bits 0..5, denormals-are-zero 6, masks 7..12, rounding 13..14, flush-to-zero 15. No input here has a
 * door divide by zero, so that this exception has no mode of its own. */
static const struct mode modes[] = {
    {"default", "deflt", 0x1f80, DEFAULT_ITSELF},
    {"round down", "down", 0x3f80, SHOWS},
    {"round up", "up", 0x5f80, SHOWS},
    {"toward zero", "zero", 0x7f80, SHOWS},
    {"FTZ", "FTZ", 0x9f80, SHOWS},
    {"DAZ", "DAZ", 0x1fc0, SHOWS},
    {"FTZ and DAZ", "both", 0x9fc0, SHOWS},
    {"invalid stops", "inval", 0x1f80 & ~0x0080, STOPS},
    {"denormal stops", "denor", 0x1f80 & ~0x0100, STOPS},
    {"overflow stops", "overf", 0x1f80 & ~0x0400, STOPS},
    {"underflow stops", "under", 0x1f80 & ~0x0800, STOPS},
    {"inexact stops", "inex", 0x1f80 & ~0x1000, STOPS},
    {"all stop", "all", 0x0000, STOPS},
};
enum { MODES = sizeof modes / sizeof modes[0] };

/* What a call made: its status and the bytes of everything that it may write. */
struct answer {
    uint32_t status;
    size_t bytes;
    unsigned char byte[MOST * ROOM_BYTES];
};

/* Calls a door on copies of its inputs in the mode; answers the mode word as it stood after the call. */
static unsigned ask(const struct door *door, call *function, const struct given *given, unsigned mode,
                    struct answer *answer)
{
    static union room store[MOST];
    union argument argument[MOST];
    for (unsigned i = 0; i < door->count; i++) {
        const struct parameter *parameter = &door->parameter[i];
        argument[i] = given->value[i];
        if (!is_buffer(parameter)) continue;
        argument[i].place = store[i].byte;
        if (parameter->way == MADE) memset(store[i].byte, 0, given->count[i] * parameter->width);
        else memcpy(store[i].byte, given->room[i].byte, given->count[i] * parameter->width);
    }
    _mm_setcsr(mode);
    const uint32_t status = function(argument);
    const unsigned after = _mm_getcsr();
    _mm_setcsr(DEFAULT);
    answer->status = status;
    answer->bytes = 0;
    for (unsigned i = 0; i < door->count; i++) {
        const struct parameter *parameter = &door->parameter[i];
        if (!is_written(parameter)) continue;
        const size_t bytes = given->count[i] * parameter->width;
        memcpy(answer->byte + answer->bytes, store[i].byte, bytes);
        answer->bytes += bytes;
    }
    return after;
}

static int same(const struct answer *a, const struct answer *b)
{
    return a->status == b->status && a->bytes == b->bytes && memcmp(a->byte, b->byte, a->bytes) == 0;
}

/* Multiplies by a power of two, rounding to a single once. */
static uint32_t scaled(uint32_t word, int exponent)
{
    double x = single_of(word);
    for (; exponent < 0; exponent++) x /= 2;
    for (; exponent > 0; exponent--) x *= 2;
    return word_of((float)x);
}

/* A valid input, and variants in which a mode shows: subnormal numbers, products that underflow, a pitch that two lags
 * tie for, a quiet subframe after a loud one, numbers whose product overflows, a NaN. */
static void make_telling(int number, uint64_t turn, struct given *given)
{
    const struct door *door = &doors[number];
    struct random random = random_of(1, door, turn);
    make_valid(door, &random, given);
    const unsigned variant = turn % 8;
    for (unsigned i = 0; i < door->count; i++) {
        const struct parameter *parameter = &door->parameter[i];
        if (!is_buffer(parameter) || parameter->way == MADE || parameter->element != F32) continue;
        for (size_t n = 0; n < given->count[i]; n++) {
            uint32_t *word = &given->room[i].word[n];
            if (variant == 1) *word = scaled(*word, -140);
            if (variant == 2 && random_below(&random, 2)) *word = scaled(*word, -135);
            if (variant == 3) *word = scaled(*word, -64);
            if (variant == 4 && parameter->role == SPEECH)
                *word = scaled(*word, parameter->many != SLICE || n < 240 ? 0 : -132);
            if (variant == 5) *word = scaled(*word, 110);
        }
        if (variant == 6) given->room[i].word[random_below(&random, given->count[i])] = 0x7fa00001;
    }
    const int place = parameter_of(door, PLACE), pitch = parameter_of(door, PITCH_LAG), speech = parameter_of(door, SPEECH);
    if (variant == 4 && place >= 0 && pitch >= 0 && speech >= 0) {
        uint32_t *const word = given->room[speech].word;
        put_value(&door->parameter[place], &given->value[place], 240);
        put_value(&door->parameter[pitch], &given->value[pitch], 60);
        for (size_t n = 240; n < 300; n++) word[n] = scaled(word[n - 60], -132);
    }
    if (variant == 7) make_tie(door, &random, given);
}

/* Runs the turns in a child, whose end tells whether an exception stopped it: 1 for that, 0 if not, 2 if it found a
 * difference. */
static int stopped(int number, call *function, const struct mode *mode, uint64_t turn, int compare)
{
    fflush(stdout);
    const pid_t child = fork();
    if (child < 0) {
        perror("modes: fork");
        exit(1);
    }
    if (child == 0) {
        static struct given given;
        static struct answer wanted, got;
        const struct rlimit none = {0, 0};
        setrlimit(RLIMIT_CORE, &none);
        make_telling(number, turn, &given);
        ask(&doors[number], doors[number].bare, &given, DEFAULT, &wanted);
        for (unsigned flags = 0; flags <= FLAGS; flags += FLAGS) {
            const unsigned word = mode->word | flags;
            const unsigned after = ask(&doors[number], function, &given, word, &got);
            if (compare && (after != word || !same(&wanted, &got))) _exit(2);
        }
        _exit(0);
    }
    int status = 0;
    if (waitpid(child, &status, 0) != child) {
        perror("modes: waitpid");
        exit(1);
    }
    if (WIFSIGNALED(status) && WTERMSIG(status) == SIGFPE) return 1;
    return WIFEXITED(status) && WEXITSTATUS(status) == 0 ? 0 : 2;
}

static int faults = 0;

static void fault(const struct mode *mode, int number, uint64_t turn, const char *what)
{
    if (faults++ < 20)
        printf("\nFAILED: %s, %s, input %llu: %s\n", mode->name, doors[number].name, (unsigned long long)turn, what);
}

/* How many of the inputs show a mode through the bare form; the safe one is held to the default mode's bits. */
static unsigned shown(const struct mode *mode, int number, uint64_t turns)
{
    static struct given given;
    static struct answer wanted, bare, safe;
    const struct door *door = &doors[number];
    unsigned count = 0;
    for (uint64_t turn = 0; turn < turns; turn++) {
        if (mode->kind == STOPS) {
            if (stopped(number, door->bare, mode, turn, 0) == 1) count++;
            const int end = stopped(number, door->safe, mode, turn, 1);
            if (end) fault(mode, number, turn, end == 1 ? "the safe form was stopped" : "the safe form changed");
            continue;
        }
        make_telling(number, turn, &given);
        ask(door, door->bare, &given, DEFAULT, &wanted);
        ask(door, door->bare, &given, mode->word, &bare);
        if (!same(&wanted, &bare)) count++;
        for (unsigned flags = 0; flags <= FLAGS; flags += FLAGS) {
            const unsigned word = mode->word | flags;
            if (ask(door, door->safe, &given, word, &safe) != word)
                fault(mode, number, turn, "the safe form left another mode word");
            if (!same(&wanted, &safe)) fault(mode, number, turn, "the safe form's answer changed");
        }
    }
    return count;
}

/* Nothing, or whole numbers by value. */
static int takes_no_list(const struct door *door)
{
    for (unsigned i = 0; i < door->count; i++) {
        const struct parameter *parameter = &door->parameter[i];
        if (is_read(parameter) || parameter->way == KEPT) return 0;
        if (parameter->way == VALUE && (parameter->element == F32 || parameter->element == F64)) return 0;
    }
    return 1;
}

/* A door through whose bare form no mode shows has inputs that tell nothing, unless it has next to none. */
static void look_at_silent(const struct door *door)
{
    if (door->bare == door->safe) return;
    printf("%s: no mode shows through its bare form", door->name);
    if (takes_no_list(door)) {
        printf(": it takes no float and no list, and no mode alters those few answers\n");
        return;
    }
    printf("\nFAILED: so this test shows nothing of it\n");
    faults++;
}

static int run(uint64_t turns, uint64_t stops)
{
    printf("Inputs whose answer a mode changes, or on which it stops the program, through the bare form;\n"
           "of %llu (%llu where exceptions stop).\n\n%-28s",
           (unsigned long long)turns, (unsigned long long)stops, "");
    for (int m = 0; m < MODES; m++) printf(" %5s", modes[m].brief);
    printf("\n");
    unsigned by_mode[MODES] = {0}, by_door[DOORS] = {0}, with_bare = 0;
    for (int number = 0; number < DOORS; number++) {
        printf("%-28s", doors[number].name);
        with_bare += doors[number].bare != doors[number].safe;
        for (int m = 0; m < MODES; m++) {
            const unsigned count = shown(&modes[m], number, modes[m].kind == STOPS ? stops : turns);
            by_mode[m] += count != 0;
            by_door[number] += count;
            printf(" %5u", count);
            fflush(stdout);
        }
        printf("\n");
    }
    printf("\n");
    for (int number = 0; number < DOORS; number++)
        if (by_door[number] == 0) look_at_silent(&doors[number]);
    for (int m = 0; m < MODES; m++) {
        printf("%-16s MXCSR 0x%04x: shows through %u of %u bare forms\n", modes[m].name, modes[m].word, by_mode[m],
               with_bare);
        if ((by_mode[m] == 0) == (modes[m].kind == DEFAULT_ITSELF)) continue;
        printf("FAILED: %s\n", by_mode[m] ? "it is the mode of the answers" : "so this test shows nothing");
        faults++;
    }
    if (faults) printf("%d failures\n", faults);
    else printf("every safe form kept its bits and the host's mode word in every mode\n");
    return faults ? 1 : 0;
}

/* ---- what the guard costs */

/* The flag is set in any host that has computed something. */
enum { BATCHES = 301, INEXACT = 0x20 };

static double now(void)
{
    struct timespec time;
    clock_gettime(CLOCK_MONOTONIC, &time);
    return (double)time.tv_sec * 1e9 + (double)time.tv_nsec;
}

static int by_size(const void *a, const void *b)
{
    const double x = *(const double *)a, y = *(const double *)b;
    return (x > y) - (x < y);
}

/* One valid call; the memory that a door moves on keeps moving. */
static void make_call(int number, union argument argument[MOST])
{
    static struct given given;
    static union room made[MOST];
    struct random random = random_of(1, &doors[number], 0);
    make_valid(&doors[number], &random, &given);
    lay_out(&doors[number], &given, made, argument);
}

static double median_of(double time[BATCHES])
{
    qsort(time, BATCHES, sizeof time[0], by_size);
    return time[BATCHES / 2];
}

static int cost(const char *counts)
{
    FILE *file = counts ? fopen(counts, "r") : NULL;
    if (counts && !file) {
        perror(counts);
        return 1;
    }
    printf("| door | bare | safe | the guard | no flag set | instructions |\n|---|---|---|---|---|---|\n");
    for (int number = 0; number < DOORS; number++) {
        static double time[3][BATCHES];
        union argument argument[MOST];
        make_call(number, argument);
        call *side[3] = {doors[number].bare, doors[number].safe, doors[number].safe};
        double began = now();
        for (int n = 0; n < 200; n++) side[n % 2](argument);
        /* batches of about 20 microseconds, the sides in turn */
        const int calls = 1 + (int)(20000 / ((now() - began) / 200 + 1));
        for (int batch = 0; batch < BATCHES; batch++) {
            for (int s = 0; s < 3; s++) {
                began = now();
                _mm_setcsr(s == 2 ? DEFAULT : DEFAULT | INEXACT);
                for (int n = 0; n < calls; n++) side[s](argument);
                _mm_setcsr(DEFAULT);
                time[s][batch] = (now() - began) / calls;
            }
        }
        const double bare = median_of(time[0]), safe = median_of(time[1]), other = median_of(time[2]);
        long instructions[2];
        char said[64] = "-";
        if (file && fscanf(file, "%ld %ld", &instructions[0], &instructions[1]) == 2)
            snprintf(said, sizeof said, "%ld + %ld", instructions[0], instructions[1] - instructions[0]);
        printf("| %s | %.1f ns | %.1f ns | %.1f ns | %.1f ns | %s |\n", doors[number].name, bare, safe, safe - bare,
               other - bare, said);
        fflush(stdout);
    }
    if (file) fclose(file);
    return 0;
}

static const char help[] =
    "modes: the doors under hostile floating-point modes\n\n"
    "  modes [--count N]           N inputs for each door and mode (default 400), N / 10 where exceptions stop\n"
    "  modes --cost [FILE]         the time of a call, bare and safe in turn, medians of 301 batches, and what the\n"
    "                              guard adds, where the host has computed something before and where no flag is set.\n"
    "                              FILE has each door's two counts of instructions, in the table's order\n"
    "  modes --calls DOOR SIDE N   N calls of a door, bare or safe, for a tool that counts\n"
    "  modes --list                the doors\n\n"
    "Exit status: 0 every mode shows through a bare form and through no safe one, and a mode through every bare form that\n"
    "takes a float or a list; 1 not; 2 bad usage.\n";

int main(int words, char **word)
{
    char *end = "";
    if (words == 1) return run(400, 40);
    if (words == 2 && (strcmp(word[1], "--help") == 0 || strcmp(word[1], "-h") == 0)) {
        fputs(help, stdout);
        return 0;
    }
    if (words == 2 && strcmp(word[1], "--list") == 0) {
        for (int number = 0; number < DOORS; number++) puts(doors[number].name);
        return 0;
    }
    if (words == 3 && strcmp(word[1], "--count") == 0) {
        const long count = strtol(word[2], &end, 10);
        if (count >= 80 && *end == 0) return run((uint64_t)count, (uint64_t)count / 10);
        fputs("modes: --count is a number from 80 on, so that every variant has its turn\n", stderr);
        return 2;
    }
    if ((words == 2 || words == 3) && strcmp(word[1], "--cost") == 0) return cost(word[2]);
    if (words == 5 && strcmp(word[1], "--calls") == 0) {
        const int number = door_named(word[2]), bare = strcmp(word[3], "bare") == 0;
        const long count = strtol(word[4], &end, 10);
        if (number >= 0 && (bare || strcmp(word[3], "safe") == 0) && count >= 0 && *end == 0) {
            union argument argument[MOST];
            make_call(number, argument);
            call *function = bare ? doors[number].bare : doors[number].safe;
            for (long n = 0; n < count; n++) function(argument);
            return 0;
        }
    }
    fprintf(stderr, "modes: not understood\n\n%s", help);
    return 2;
}
