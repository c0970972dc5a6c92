/* A conference gateway beside a logger, over the same call. Pitch is searched up to lag 82 and up to 142: the gateway
 * needs 85 samples of weighted speech before a frame where the logger needs 145, and finds the logger's lag wherever that
 * is at most 82. Its combined filter has a memory of its own limit; the places of the history that are then not in use are
 * filled with marks and must keep them. */
#define PROGRAM "gateway"
#include "g7231.h"
#include "shared.h"

enum {
    SUBFRAME = G7231_SUBFRAME,
    PAST = G7231_PAST, /* of a logger */
    LIMIT = G7231_GATEWAY_LAG_MAX,
    OWN_PAST = G7231_GATEWAY_PAST,
    OTHERS = PAST - OWN_PAST /* places of a history that a gateway does not use */
};

/* A filter of linear prediction, and its weighting taps. */
struct filter {
    float a[G7231_FILTER], wz[G7231_ORDER], wp[G7231_ORDER];
};

/* The last inputs and outputs of the weighting. */
struct weighting {
    float x_mem[G7231_ORDER], f_mem[G7231_ORDER];
};

/* Weights the four subframes of a frame, each by its own filter. */
static void weigh(struct weighting *weighting, const float x[SPAN], struct filter filter[4], float out[FRAME])
{
    for (int s = 0; s < 4; s++) {
        double r[G7231_FILTER];
        float k2;
        DONE(g7231_lpc_analysis, (x + s * SUBFRAME, G7231_WINDOW, filter[s].a, r, &k2));
        DONE(g7231_weighting_taps, (filter[s].a, filter[s].wz, filter[s].wp));
        DONE(g7231_weight_subframe, (x + AROUND + s * SUBFRAME, SUBFRAME, filter[s].wz, filter[s].wp, weighting->x_mem,
                                     weighting->f_mem, out + s * SUBFRAME));
    }
}

/* One subframe of the gateway: its noise shaping, and the combined filter, on the samples where a search would have an
 * excitation. */
static void combine(g7231_filter_memory *memory, const float speech[OWN_PAST + FRAME], const float *input,
                    const struct filter *filter, size_t s, uint32_t pitch)
{
    uint32_t lag;
    float factor, out[SUBFRAME];
    DONE(g7231_harmonic_noise_shaping,
         (LIMIT, speech, OWN_PAST + FRAME, OWN_PAST + s * SUBFRAME, pitch, &lag, &factor));
    DONE(g7231_run_combined, (memory, input, filter->a, filter->wz, filter->wp, lag, factor, out));
}

/* NaNs that signal, each another: a computation would alter them in passing. */
static void mark(uint32_t marks[OTHERS])
{
    for (uint32_t i = 0; i < OTHERS; i++) marks[i] = 0x7fa00000 + i;
}

int main(int words, char **word)
{
    static const char usage[] = "gateway FILE: the pitch lags of a call as a logger and as a conference gateway finds them;\n"
                                "16-bit little-endian mono at 8,000 samples a second\n";
    if (words == 2 && (strcmp(word[1], "--help") == 0 || strcmp(word[1], "-h") == 0)) return fputs(usage, stdout), 0;
    if (words != 2) return fputs(usage, stderr), 2;

    size_t frames, apart = 0, within = 0;
    int16_t *samples = read_call(word[1], &frames);
    float speech[PAST + FRAME] = {0};        /* weighted: what is before the frame, and the frame */
    const float *const own = speech + OTHERS; /* as much of it as a gateway keeps */
    uint32_t marks[OTHERS];
    struct weighting weighting = {{0}, {0}};
    struct filter filter[4];
    g7231_filter_memory memory;
    DONE(g7231_new_filter_memory, (LIMIT, &memory));
    mark(marks);
    memcpy(memory.p_hist + OWN_PAST, marks, sizeof marks);

    printf("pitch lags up to 142   up to 82\n");
    for (size_t k = 0; k < frames; k++) {
        float x[SPAN];
        uint32_t logger[2], gateway[2];
        for (int i = 0; i < SPAN; i++) x[i] = samples[k * FRAME + i];
        weigh(&weighting, x, filter, speech + PAST);
        for (size_t half = 0; half < 2; half++) {
            DONE(g7231_open_loop_pitch, (G7231_LAG_MAX, speech, PAST + FRAME, half, &logger[half]));
            DONE(g7231_open_loop_pitch, (LIMIT, own, OWN_PAST + FRAME, half, &gateway[half]));
            /* proved: a longer history moves no lag that the shorter one can hold */
            if (logger[half] > LIMIT) continue;
            same(&logger[half], &gateway[half], sizeof *logger, k, "a logger's lag of at most 82 is not the gateway's");
            within++;
        }
        for (size_t s = 0; s < 4; s++)
            combine(&memory, own, x + AROUND + s * SUBFRAME, &filter[s], s, gateway[s / 2]);
        same(memory.p_hist + OWN_PAST, marks, sizeof marks, k, "places that are not in use were altered");
        memmove(speech, speech + FRAME, PAST * sizeof *speech);
        const int differ = memcmp(logger, gateway, sizeof logger) != 0;
        apart += (size_t)differ;
        printf("frame %3zu   %3" PRIu32 " %3" PRIu32 "    %3" PRIu32 " %3" PRIu32 "%s\n", k, logger[0], logger[1],
               gateway[0], gateway[1], differ ? "   *" : "");
    }
    printf("* other lags than a logger's: %zu of %zu frames\n", apart, frames);
    printf("a logger's lag of at most %d is the gateway's too: %zu of %zu halves\n", LIMIT, within, 2 * frames);
    printf("the %d places of the filter's history that are not in use are as they were\n", OTHERS);

    /* a limit is one of two numbers, when a memory is made and whenever it is used */
    uint32_t status = g7231_new_filter_memory(100, &memory);
    if (status == G7231_CHOICE) {
        float out[SUBFRAME];
        memory.lag_limit = 100;
        status = g7231_run_combined(&memory, own, filter[0].a, filter[0].wz, filter[0].wp, G7231_LAG_MIN, 0, out);
    }
    if (status != G7231_CHOICE) return fputs(PROGRAM ": the limit 100 is not refused with 2\n", stderr), 1;
    printf("a memory with the limit 100 is refused with %" PRIu32 ": %s\n", status, g7231_refusal(status));
    free(samples);
    return 0;
}
