/* Another C library's cosines, for a program that was linked with this one's.
 *
 * Preloaded (LD_PRELOAD), it answers cos, acos, log10 and their singles: what the C library answers, and for about one
 * argument in EVERY the neighbour of that, one unit in the last place nearer to zero. The same argument has always the
 * same answer. Values that any library has exactly (0, 1 and -1) are left alone. At the end of the program it says on
 * standard error how often it was called. */
#define _GNU_SOURCE
#include <dlfcn.h>
#include <math.h>
#include <stdint.h>
#include <stdio.h>
#include <stdlib.h>
#include <string.h>

#define EVERY 8

struct function {
    const char *name;
    void *real;
    unsigned long calls, moved;
};

enum { COS, COSF, ACOS, ACOSF, LOG10, LOG10F, FUNCTIONS };

static struct function functions[FUNCTIONS] = {
    {"cos", NULL, 0, 0},   {"cosf", NULL, 0, 0},  {"acos", NULL, 0, 0},
    {"acosf", NULL, 0, 0}, {"log10", NULL, 0, 0}, {"log10f", NULL, 0, 0},
};

/* The C library's own function of that name. ISO C has no conversion from an object's address to a function's. */
static void own(struct function *f, void *pointer) {
    if (f->real == NULL) f->real = dlsym(RTLD_NEXT, f->name);
    if (f->real == NULL) {
        fprintf(stderr, "other_libm: there is no %s\n", f->name);
        abort();
    }
    memcpy(pointer, &f->real, sizeof f->real);
}

/* Whether the answer to an argument is moved: decided by its bits alone. */
static int moves(struct function *f, uint64_t bits, double answer) {
    f->calls++;
    if (!isfinite(answer) || answer == 0 || answer == 1 || answer == -1) return 0;
    bits = (bits ^ bits >> 32) * UINT64_C(0x9e3779b97f4a7c15);
    if ((bits >> 40) % EVERY != 0) return 0;
    f->moved++;
    return 1;
}

static double moved(struct function *f, double x) {
    double (*real)(double), y;
    uint64_t bits;
    own(f, &real);
    y = real(x);
    memcpy(&bits, &x, sizeof bits);
    return moves(f, bits, y) ? nextafter(y, 0) : y;
}

static float movedf(struct function *f, float x) {
    float (*real)(float), y;
    uint32_t bits;
    own(f, &real);
    y = real(x);
    memcpy(&bits, &x, sizeof bits);
    return moves(f, bits, (double)y) ? nextafterf(y, 0) : y;
}

double cos(double x) { return moved(&functions[COS], x); }
float cosf(float x) { return movedf(&functions[COSF], x); }
double acos(double x) { return moved(&functions[ACOS], x); }
float acosf(float x) { return movedf(&functions[ACOSF], x); }
double log10(double x) { return moved(&functions[LOG10], x); }
float log10f(float x) { return movedf(&functions[LOG10F], x); }

__attribute__((destructor)) static void tell(void) {
    int i, any = 0;
    fprintf(stderr, "the other C library was ");
    for (i = 0; i < FUNCTIONS; i++) {
        struct function *f = &functions[i];
        if (f->calls == 0) continue;
        fprintf(stderr, "%scalled %lu times for %s and moved %lu answers", any ? ", " : "", f->calls, f->name, f->moved);
        any = 1;
    }
    fprintf(stderr, any ? ", each by one unit in the last place\n" : "not called once\n");
}
