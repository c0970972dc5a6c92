/* How much stack a call takes: each door on a thread whose stack is painted before. guard/run --stack builds and runs
 * it. What is measured is the depth below the caller, the table's call and the safe form included. */
#define _GNU_SOURCE

#include <pthread.h>
#include <stdio.h>
#include <stdlib.h>
#include <string.h>
#include <sys/mman.h>

#include "inputs.h"

enum { STACK = 1 << 20, PAINT = 0x5a, TURNS = 200 };

static unsigned char *stack;

struct job {
    call *function;
    union argument argument[MOST];
    const unsigned char *top; /* where the caller stands */
};

static void *run(void *what)
{
    struct job *job = what;
    job->top = __builtin_frame_address(0);
    job->function(job->argument);
    return NULL;
}

static void must(int failed, const char *what)
{
    if (!failed) return;
    fprintf(stderr, "stack: %s failed\n", what);
    exit(3);
}

/* The bytes below the caller that a call has written over. */
static size_t depth(struct job *job)
{
    pthread_attr_t attributes;
    pthread_t thread;
    memset(stack, PAINT, STACK);
    must(pthread_attr_init(&attributes), "pthread_attr_init");
    must(pthread_attr_setstack(&attributes, stack, STACK), "pthread_attr_setstack");
    must(pthread_create(&thread, &attributes, run, job), "pthread_create");
    must(pthread_join(thread, NULL), "pthread_join");
    pthread_attr_destroy(&attributes);
    const unsigned char *low = stack;
    while (low < job->top && *low == PAINT) low++;
    return (size_t)(job->top - low);
}

static size_t deepest(int number, int safe)
{
    static struct given given;
    static union room made[MOST];
    const struct door *door = &doors[number];
    size_t most = 0;
    for (uint64_t turn = 0; turn < TURNS; turn++) {
        struct random random = random_of(1, door, turn);
        struct job job = {.function = safe ? door->safe : door->bare};
        make_valid(door, &random, &given);
        lay_out(door, &given, made, job.argument);
        const size_t bytes = depth(&job);
        if (bytes > most) most = bytes;
    }
    return most;
}

/* A call that takes 20,000 bytes, which the measurement must see. */
static uint32_t planted(const union argument *argument)
{
    volatile unsigned char room[20000];
    (void)argument;
    for (size_t n = 0; n < sizeof room; n++) room[n] = 1;
    return room[7];
}

/* A number of bytes; 0 where a word is none. */
static size_t bytes_of(const char *word)
{
    char *end;
    const size_t bytes = strtoul(word, &end, 10);
    return *end ? 0 : bytes;
}

int main(int words, char **word)
{
    static const char help[] = "stack [BYTES [BYTES DOOR...]]: the stack that a call of each door takes, over 200 valid\n"
                               "calls; the doors that are named have the second bound.\n"
                               "Exit status: 0 below BYTES, where given; 1 not; 2 bad usage; 3 the harness itself.\n";
    size_t most = 0, bound[DOORS] = {0};
    int high = 0;
    if (words == 2 && (strcmp(word[1], "--help") == 0 || strcmp(word[1], "-h") == 0)) return fputs(help, stdout), 0;
    if (words == 3 || (words >= 2 && bytes_of(word[1]) == 0) || (words >= 4 && bytes_of(word[2]) == 0))
        return fputs(help, stderr), 2;
    for (int number = 0; number < DOORS && words >= 2; number++) bound[number] = bytes_of(word[1]);
    for (int i = 3; i < words; i++) {
        const int number = door_named(word[i]);
        if (number < 0) return fprintf(stderr, "stack: there is no door %s\n\n%s", word[i], help), 2;
        bound[number] = bytes_of(word[2]);
    }
    stack = mmap(NULL, STACK, PROT_READ | PROT_WRITE, MAP_PRIVATE | MAP_ANONYMOUS, -1, 0);
    must(stack == MAP_FAILED, "mmap");
    struct job job = {.function = planted};
    const size_t seen = depth(&job);
    if (seen < 20000 || seen > 24000) {
        printf("FAILED: a planted call of 20,000 bytes is measured as %zu\n", seen);
        return 1;
    }
    printf("%-28s %8s %8s\n", "bytes of stack", "bare", "safe");
    for (int number = 0; number < DOORS; number++) {
        const size_t bare = deepest(number, 0), safe = deepest(number, 1);
        const size_t deeper = bare > safe ? bare : safe;
        printf("%-28s %8zu %8zu\n", doors[number].name, bare, safe);
        if (deeper > most) most = deeper;
        if (bound[number] && deeper >= bound[number]) {
            printf("FAILED: that is not below the %zu that the header says\n", bound[number]);
            high = 1;
        }
    }
    printf("at most %zu bytes; a planted call of 20,000 is measured as %zu\n", most, seen);
    return high;
}
