/* The memory checks: every buffer of every door against an inaccessible page, over damaged, random and limit inputs.
 * `faults --help` says how to call it; faults/run builds and runs it. */
#define _GNU_SOURCE

#include <errno.h>
#include <signal.h>
#include <stdio.h>
#include <stdlib.h>
#include <string.h>
#include <sys/time.h>
#include <sys/wait.h>
#include <time.h>
#include <unistd.h>

#include "arena.h"
#include "damage.h"
#include "planted.h"

/* ---- what is under way, for the report */

enum form { BARE, SAFE };
static const char *const layout_names[] = {"end at the page", "start at the page"};

static struct {
    const struct door *door;
    uint64_t seed, turn;
    volatile int calling; /* a door has the processor */
    enum form form;
    enum layout layout;
} at;

static int told = STDOUT_FILENO;

/* Prints a fault and ends the program. Called from signal handlers too: a door has the processor then, and never calls
 * the C library's output. */
static void report(const char *what)
{
    char line[512];
    const int bare = at.form == BARE && at.door->bare != at.door->safe;
    const int length = snprintf(line, sizeof line,
                                "FAULT: g7231_%s%s: %s; layout: %s; seed %llu, turn %llu\n"
                                "again: faults --seed %llu --only %s --turn %llu\n",
                                bare ? "bare_" : "", at.door->name, what, layout_names[at.layout],
                                (unsigned long long)at.seed, (unsigned long long)at.turn, (unsigned long long)at.seed,
                                at.door->name, (unsigned long long)at.turn);
    if (write(told, line, (size_t)length) != length) _exit(3);
    _exit(1);
}

static void on_signal(int number, siginfo_t *info, void *context)
{
    char what[160];
    (void)context;
    if (!at.calling) {
        static const char own[] = "faults: a signal outside any door: the harness is at fault\n";
        if (write(STDERR_FILENO, own, sizeof own - 1) < 0) _exit(3);
        _exit(3);
    }
    if (number == SIGPROF) {
        report("did not come back in time");
    } else if (number == SIGSEGV || number == SIGBUS) {
        const int slot = arena_slot(info->si_addr);
        snprintf(what, sizeof what, "touched memory that it may not: buffer %s, %s",
                 slot >= 0 && slot < (int)at.door->count ? at.door->parameter[slot].name : "unknown",
                 layout_names[at.layout]);
        report(what);
    } else {
        snprintf(what, sizeof what, "was stopped by signal %d", number);
        report(what);
    }
}

static void catch_signals(void)
{
    static unsigned char stack[65536];
    const stack_t alternative = {.ss_sp = stack, .ss_size = sizeof stack};
    struct sigaction action = {.sa_sigaction = on_signal, .sa_flags = SA_SIGINFO | SA_ONSTACK};
    sigaltstack(&alternative, NULL);
    sigemptyset(&action.sa_mask);
    const int numbers[] = {SIGSEGV, SIGBUS, SIGFPE, SIGILL, SIGABRT, SIGTRAP, SIGPROF};
    for (size_t i = 0; i < sizeof numbers / sizeof *numbers; i++) sigaction(numbers[i], &action, NULL);
}

/* A door that does not come back is told by the processor time of a batch, which a busy machine does not lengthen. */
static void set_timer(int seconds)
{
    const struct itimerval time = {.it_value = {seconds, 0}};
    setitimer(ITIMER_PROF, &time, NULL);
}

/* ---- one call */

/* Watched bytes beside a buffer, on the side where there is no inaccessible page. What lies further off meets the page
 * in the other layout. */
enum { BESIDE = 256 };

/* NaNs that signal and NaNs with a payload, which a computation could alter in passing; and ordinary numbers. */
static const uint32_t fragile[] = {0x7f800001, 0xff800001, 0x7fa01234, 0xffbfffff, 0x7fc00001, 0xffffffff, 0x3f99999a};

struct place {
    size_t offset, bytes; /* of the buffer in its slot */
    size_t used;          /* its bytes that a call may look at, the first ones */
    size_t from, to;      /* what is watched */
    unsigned char before[SLOT_BYTES];
};
static struct place places[MOST];

static void lay_out_fenced(const struct given *given, struct random *random, union argument argument[MOST])
{
    for (unsigned i = 0; i < at.door->count; i++) {
        const struct parameter *parameter = &at.door->parameter[i];
        argument[i] = given->value[i];
        if (!is_buffer(parameter)) continue;
        struct place *place = &places[i];
        place->bytes = given->count[i] * parameter->width;
        place->used = in_use(at.door, given, i) * parameter->width;
        /* an empty buffer stands at the page, so that reading even its first element is seen */
        const int end = at.layout == AT_END || place->bytes == 0;
        place->offset = end ? SLOT_BYTES - place->bytes : 0;
        place->from = place->offset > BESIDE ? place->offset - BESIDE : 0;
        place->to = place->offset + place->bytes + BESIDE;
        if (place->to > SLOT_BYTES) place->to = SLOT_BYTES;
        unsigned char *const own = arena_own((int)i);
        for (size_t n = place->from / 4 * 4; n < place->to; n += 4) {
            const uint32_t word = fragile[random_below(random, sizeof fragile / sizeof *fragile)];
            memcpy(own + n, &word, 4);
        }
        /* what is not in use is another in each of the four calls, so that one that looks at it answers otherwise */
        if (parameter->way != MADE) memcpy(own + place->offset, given->room[i].byte, place->used);
        memcpy(place->before + place->from, own + place->from, place->to - place->from);
        argument[i].place = arena_seen((int)i, at.layout == AT_START && is_read(parameter)) + place->offset;
    }
}

static int moved(const struct place *place, const unsigned char *own, size_t from, size_t to)
{
    return to > from && memcmp(place->before + from, own + from, to - from) != 0;
}

static void look(uint32_t status)
{
    char what[160];
    if (status >= STATUSES) {
        snprintf(what, sizeof what, "answered %lu, which is no status", (unsigned long)status);
        report(what);
    }
    for (unsigned i = 0; i < at.door->count; i++) {
        const struct parameter *parameter = &at.door->parameter[i];
        if (!is_buffer(parameter)) continue;
        const struct place *place = &places[i];
        const unsigned char *own = arena_own((int)i);
        const size_t end = place->offset + place->bytes, used = place->offset + place->used;
        what[0] = 0;
        if (moved(place, own, place->from, place->offset) || moved(place, own, end, place->to))
            snprintf(what, sizeof what, "wrote outside %s", parameter->name);
        else if (moved(place, own, used, end))
            snprintf(what, sizeof what, "altered %s where it is not in use", parameter->name);
        else if (!moved(place, own, place->offset, end)) continue;
        else if (is_read(parameter))
            snprintf(what, sizeof what, "altered %s, which is only read", parameter->name);
        else if (status != 0)
            snprintf(what, sizeof what, "refused with %lu and altered %s", (unsigned long)status, parameter->name);
        if (what[0]) report(what);
    }
}

/* What the first call of a turn answered; the others are held to it. */
struct answer {
    uint32_t status;
    size_t bytes;
    unsigned char byte[MOST * SLOT_BYTES];
};

static void keep(uint32_t status, struct answer *answer)
{
    answer->status = status;
    answer->bytes = 0;
    for (unsigned i = 0; i < at.door->count; i++) {
        if (status != 0 || !is_written(&at.door->parameter[i])) continue;
        memcpy(answer->byte + answer->bytes, arena_own((int)i) + places[i].offset, places[i].used);
        answer->bytes += places[i].used;
    }
}

/* ---- turns */

struct tally {
    uint64_t turns, status[STATUSES];
};

static void turn(const struct door *door, struct tally *tally)
{
    static struct given given;
    static struct answer first, other;
    union argument argument[MOST];
    struct random random = random_of(at.seed, door, at.turn);
    at.door = door;
    make_damaged(door, &random, &given);
    for (int i = 0; i < 4; i++) {
        at.layout = i / 2 == 0 ? AT_END : AT_START;
        at.form = i % 2 == 0 ? BARE : SAFE;
        lay_out_fenced(&given, &random, argument);
        call *const function = at.form == BARE ? door->bare : door->safe;
        at.calling = 1;
        const uint32_t status = function(argument);
        at.calling = 0;
        look(status);
        keep(status, i == 0 ? &first : &other);
        if (i > 0 && (first.status != other.status || first.bytes != other.bytes ||
                      memcmp(first.byte, other.byte, first.bytes) != 0))
            report("gave another answer to the same inputs than the first call of the turn");
    }
    tally->turns++;
    tally->status[first.status]++;
}

/* ---- planted faults */

/* Runs a faulty door in a child and looks for what its report must say; 1 where it does. */
static int seen(const struct planted *plant)
{
    int pipes[2];
    char said[1024];
    size_t length = 0;
    if (pipe(pipes) != 0) return 0;
    fflush(stdout);
    const pid_t child = fork();
    if (child < 0) return 0;
    if (child == 0) {
        const int number = door_named(plant->instead_of);
        struct door door = doors[number];
        struct tally tally = {0};
        told = pipes[1];
        door.bare = plant->function;
        if (plant->both) door.safe = plant->function;
        set_timer(2);
        for (at.turn = 0; at.turn < 2000; at.turn++) turn(&door, &tally);
        _exit(0);
    }
    close(pipes[1]);
    for (ssize_t got; length < sizeof said - 1; length += (size_t)got) {
        got = read(pipes[0], said + length, sizeof said - 1 - length);
        if (got < 0 && errno == EINTR) got = 0;
        else if (got <= 0) break;
    }
    close(pipes[0]);
    said[length] = 0;
    int status = 0;
    waitpid(child, &status, 0);
    const int found = WIFEXITED(status) && WEXITSTATUS(status) == 1 && strstr(said, plant->reported) != NULL;
    said[strcspn(said, "\n")] = 0;
    printf("planted: %s: %s\n", plant->name, found ? said : "NOT SEEN");
    return found;
}

static int run_planted(void)
{
    int missed = 0;
    for (int i = 0; i < PLANTED; i++) missed += !seen(&planted[i]);
    printf("%d planted faults, %d not seen\n", PLANTED, missed);
    return missed ? 1 : 0;
}

/* ---- the run */

/* A run of some length must have met every refusal that the header has for a door, and no other. */
enum { ENOUGH = 1000 };

static int is_due(const struct door *door, uint32_t status)
{
    if (status == 0) return 1;
    for (const uint32_t *refusal = door->refusal; *refusal; refusal++)
        if (*refusal == status) return 1;
    return 0;
}

static int summary(const struct tally tally[DOORS], double seconds)
{
    int missed = 0;
    uint64_t calls = 0;
    printf("%-28s %12s %12s", "door", "turns", "done");
    for (int i = 1; i < STATUSES; i++) printf(" %10s%2d", "refused ", i);
    printf("\n");
    for (int number = 0; number < DOORS; number++) {
        const struct tally *t = &tally[number];
        if (t->turns == 0) continue;
        calls += 4 * t->turns;
        printf("%-28s %12llu", doors[number].name, (unsigned long long)t->turns);
        for (int i = 0; i < STATUSES; i++) printf(" %12llu", (unsigned long long)t->status[i]);
        printf("\n");
        if (t->turns < ENOUGH) continue;
        for (int i = 0; i < STATUSES; i++) {
            const int due = is_due(&doors[number], (uint32_t)i);
            if (due == (t->status[i] > 0)) continue;
            printf("FAILED: %s: %s with %d\n", doors[number].name, due ? "no call ended" : "a call ended", i);
            missed++;
        }
    }
    printf("%llu calls in %.0f s, no fault\n", (unsigned long long)calls, seconds);
    return missed ? 1 : 0;
}

static const char help[] =
    "faults: every buffer of every door against an inaccessible page\n\n"
    "  faults [--seed S] [--count N] [--minutes M] [--only DOOR] [--turn T]\n"
    "  faults --planted        faulty doors, each of which must be reported\n\n"
    "A turn makes one set of inputs for each door and calls it four times: bare and safe form, each buffer with its end at\n"
    "an inaccessible page and with its start at one (there what is only read cannot be written). N turns (default 2000),\n"
    "or turns for M minutes; --turn makes one turn again. The same seed makes the same turns.\n"
    "A call that touches other memory, does not come back, alters what it only reads, alters anything when it refuses, or\n"
    "answers the four calls differently is reported with its seed and turn. So is one that alters the places of a filter's\n"
    "history that are not in use, or looks at them: they are others in each call. A run of 1,000 turns or more fails too where\n"
    "a door was never done or never gave one of its refusals.\n\n"
    "Exit status: 0 no fault; 1 a fault; 2 bad usage; 3 the harness itself.\n";

static double now(void)
{
    struct timespec time;
    clock_gettime(CLOCK_MONOTONIC, &time);
    return (double)time.tv_sec + (double)time.tv_nsec / 1e9;
}

static int misused(const char *why, const char *word)
{
    fprintf(stderr, "faults: %s %s\n\n%s", word, why, help);
    return 2;
}

int main(int words, char **word)
{
    static struct tally tally[DOORS];
    uint64_t count = 2000, from = 0, minutes = 0;
    int only = -1, plant = 0;
    at.seed = 1;
    for (int i = 1; i < words; i++) {
        char *end = "";
        uint64_t *value = NULL;
        if (strcmp(word[i], "--help") == 0 || strcmp(word[i], "-h") == 0) {
            fputs(help, stdout);
            return 0;
        }
        if (strcmp(word[i], "--planted") == 0) {
            plant = 1;
            continue;
        }
        if (strcmp(word[i], "--seed") == 0) value = &at.seed;
        else if (strcmp(word[i], "--count") == 0) value = &count;
        else if (strcmp(word[i], "--minutes") == 0) value = &minutes;
        else if (strcmp(word[i], "--turn") == 0) value = &from;
        else if (strcmp(word[i], "--only") != 0) return misused("is not understood", word[i]);
        if (++i == words) return misused("has no value", word[i - 1]);
        if (!value) {
            only = door_named(word[i]);
            if (only < 0) return misused("is no door", word[i]);
            continue;
        }
        errno = 0;
        *value = strtoull(word[i], &end, 10);
        if (errno || *end || end == word[i] || word[i][0] == '-') return misused("is no number", word[i]);
        if (value == &from) count = 1;
    }
    arena_open();
    catch_signals();
    if (plant) return run_planted();
    const double began = now();
    double spoken = began;
    for (at.turn = from; minutes ? now() - began < 60.0 * (double)minutes : at.turn < from + count; at.turn++) {
        if ((at.turn - from) % 64 == 0) {
            set_timer(10);
            if (now() - spoken > 10) {
                spoken = now();
                fprintf(stderr, "faults: turn %llu, %.0f s, no fault\n", (unsigned long long)at.turn, spoken - began);
            }
        }
        for (int number = 0; number < DOORS; number++)
            if (only < 0 || only == number) turn(&doors[number], &tally[number]);
    }
    set_timer(0);
    return summary(tally, now() - began);
}
