/* Codes a call twice, frame by frame, and decodes it at the other end, as a host would: by g7231_code_frame, and by the
 * doors one by one, as a host does that wants what lies between. After every frame the two ways must have the same
 * bits, and so must the other end in all that it makes of an index.
 *
 * The excitation search is not part of the library: where a coder would send the excitation that it found through
 * g7231_run_combined, this example sends the samples. */
#define PROGRAM "call"
#include "g7231.h"
#include "shared.h"

enum { LINES = G7231_ORDER, SUBFRAME = G7231_SUBFRAME, PAST = G7231_PAST, LIMIT = G7231_LAG_MAX };

/* Of the doors one by one, and of all answers. */
static uint64_t stepped = NOTHING, answers = NOTHING;

#define ANSWERED(what) hash(&answers, &(what), sizeof(what))

/* ---- what both ends do with a set */

/* From a set of line frequencies to the lines of the frame. They are taken whether or not they could be held apart. */
static void settle(const float set[LINES], float lines[LINES])
{
    float cosines[LINES];
    uint32_t converged;
    DONE(g7231_lsp_freq_to_cosines, (set, cosines));
    DONE(g7231_enforce_lsp_stability, (cosines, spacing_hz, lines, &converged));
    ANSWERED(cosines);
    hash(&answers, lines, sizeof cosines);
    ANSWERED(converged);
}

/* The filter of each subframe, between the last frame's lines and this one's. */
static void filters(const float last[LINES], const float lines[LINES], float a[4][G7231_FILTER])
{
    for (size_t s = 0; s < 4; s++) {
        float between[LINES];
        DONE(g7231_interpolate_lsp, (s, last, lines, between));
        DONE(g7231_lsp_to_lpc, (between, a[s]));
        ANSWERED(between);
        hash(&answers, a[s], sizeof a[s]);
    }
}

/* ---- the coder, by the doors one by one */

struct taps {
    float wz[LINES], wp[LINES];
};

/* The windows' filters, of which the last gives the lines; the others are for weighting alone. */
static void windows(const float x[SPAN], float a[4][G7231_FILTER], struct taps taps[4])
{
    for (int s = 0; s < 4; s++) {
        double r[G7231_FILTER];
        float k2;
        DONE(g7231_lpc_analysis, (x + s * SUBFRAME, G7231_WINDOW, a[s], r, &k2));
        DONE(g7231_weighting_taps, (a[s], taps[s].wz, taps[s].wp));
        hash(&answers, a[s], sizeof a[s]);
        ANSWERED(r);
        ANSWERED(k2);
        ANSWERED(taps[s]);
    }
}

/* The lines of a filter as an index, and the set that the decoder makes of it. A filter that has no lines (7) refuses
 * nothing: the set before is quantised in their place. */
static void quantise(const float a[G7231_FILTER], float set[LINES], uint32_t *index)
{
    float found[LINES], freq[LINES], next[LINES];
    const uint32_t status = g7231_lpc_to_lsp(a, found);
    ANSWERED(status);
    if (status == G7231_NO_LINE_SET) {
        memcpy(freq, set, sizeof freq);
    } else {
        done(status, "g7231_lpc_to_lsp");
        DONE(g7231_lsp_cosines_to_freq, (found, freq));
        ANSWERED(found);
    }
    DONE(g7231_quantise_lsp_freq, (freq, set, index, next));
    ANSWERED(freq);
    memcpy(set, next, sizeof next);
}

/* What g7231_code_frame does, and the weighting taps beside it. */
static void step(g7231_coder *coder, const float x[SPAN], struct taps taps[4], g7231_frame *frame)
{
    float a[4][G7231_FILTER], last[LINES], speech[PAST + FRAME];

    windows(x, a, taps);
    quantise(a[3], coder->set, &frame->index);
    memcpy(last, coder->lines, sizeof last);
    settle(coder->set, coder->lines);
    filters(last, coder->lines, frame->a);

    memcpy(speech, coder->weighted, sizeof coder->weighted);
    for (int s = 0; s < 4; s++)
        DONE(g7231_weight_subframe, (x + AROUND + s * SUBFRAME, SUBFRAME, taps[s].wz, taps[s].wp, coder->x_mem,
                                     coder->f_mem, speech + PAST + s * SUBFRAME));
    memcpy(coder->weighted, speech + FRAME, sizeof coder->weighted);
    ANSWERED(speech);

    for (size_t half = 0; half < 2; half++)
        DONE(g7231_open_loop_pitch, (LIMIT, speech, PAST + FRAME, half, &frame->pitch[half]));
    for (size_t s = 0; s < 4; s++)
        DONE(g7231_harmonic_noise_shaping, (LIMIT, speech, PAST + FRAME, PAST + s * SUBFRAME, frame->pitch[s / 2],
                                            &frame->lag[s], &frame->factor[s]));
}

/* ---- the combined filter, which a search would run */

static void run(g7231_filter_memory *memory, const float *input, const g7231_frame *frame, int s,
                const struct taps *taps)
{
    float out[SUBFRAME];
    DONE(g7231_run_combined, (memory, input, frame->a[s], taps->wz, taps->wp, frame->lag[s], frame->factor[s], out));
    ANSWERED(out);
}

static void combine(g7231_filter_memory *memory, const float x[SPAN], const g7231_frame *frame,
                    const struct taps taps[4])
{
    for (int s = 0; s < 4; s++) {
        static const float silence[SUBFRAME];
        float response[SUBFRAME];
        DONE(g7231_combined_impulse_response,
             (LIMIT, frame->a[s], taps[s].wz, taps[s].wp, frame->lag[s], frame->factor[s], response));
        ANSWERED(response);
        /* what the filter still rings with, on a copy of its memory */
        g7231_filter_memory copy = *memory;
        run(&copy, silence, frame, s, &taps[s]);
        run(memory, x + AROUND + s * SUBFRAME, frame, s, &taps[s]);
    }
}

/* ---- the other end */

struct decoder {
    float set[LINES], lines[LINES];
};

/* The same set, lines and filters from the index alone, of which three bytes were sent. */
static void decode(struct decoder *decoder, const uint8_t sent[G7231_BANDS], float a[4][G7231_FILTER])
{
    uint32_t index;
    float set[LINES], last[LINES];
    DONE(g7231_combine_lsp_index, (sent, &index));
    DONE(g7231_decode_lsp_freq, (index, decoder->set, set));
    memcpy(decoder->set, set, sizeof set);
    memcpy(last, decoder->lines, sizeof last);
    settle(set, decoder->lines);
    filters(last, decoder->lines, a);
}

/* ---- the call */

int main(int words, char **word)
{
    static const char usage[] = "call FILE: codes and decodes a call, 16-bit little-endian mono at 8,000 samples a second\n";
    if (words == 2 && (strcmp(word[1], "--help") == 0 || strcmp(word[1], "-h") == 0)) return fputs(usage, stdout), 0;
    if (words != 2) return fputs(usage, stderr), 2;

    size_t frames;
    int16_t *samples = read_call(word[1], &frames);
    g7231_filter_memory memory;
    struct decoder decoder;
    struct hashes hashes = {NOTHING, NOTHING};
    g7231_coder caller, stepper;
    DONE(g7231_new_coder, (&caller));
    DONE(g7231_new_coder, (&stepper));
    DONE(g7231_new_filter_memory, (LIMIT, &memory));
    DONE(g7231_resting_set, (decoder.set));
    DONE(g7231_lsp_freq_to_cosines, (decoder.set, decoder.lines));

    for (size_t k = 0; k < frames; k++) {
        g7231_frame frame, again;
        struct taps taps[4];
        float x[SPAN], a[4][G7231_FILTER];
        uint8_t sent[G7231_BANDS];

        DONE(g7231_code_frame, (&caller, samples + k * FRAME, SPAN, spacing_hz, &frame));
        hash_frame(&hashes, &frame, &caller);

        for (int i = 0; i < SPAN; i++) x[i] = samples[k * FRAME + i];
        step(&stepper, x, taps, &again);
        hash(&stepped, &again, sizeof again);
        hash(&stepped, &stepper, sizeof stepper);
        ANSWERED(again);
        ANSWERED(stepper);
        same(&frame, &again, sizeof frame, k, "the frame call and the doors one by one answer differently");
        same(&caller, &stepper, sizeof caller, k, "the frame call and the doors one by one leave different memories");
        combine(&memory, x, &frame, taps);

        DONE(g7231_split_lsp_index, (frame.index, sent));
        decode(&decoder, sent, a);
        same(decoder.set, caller.set, sizeof caller.set, k, "the ends have different sets");
        same(decoder.lines, caller.lines, sizeof caller.lines, k, "the ends have different lines");
        same(a, frame.a, sizeof a, k, "the ends have different filters");
        printf("frame %3zu  index %8" PRIu32 "  lags %3" PRIu32 " %3" PRIu32 "\n", k, frame.index, frame.pitch[0],
               frame.pitch[1]);
    }
    print_hashes(&hashes);
    printf("the doors one by one  %016" PRIx64 "\n", stepped);
    printf("all answers           %016" PRIx64 "\n", answers);
    free(samples);
    return 0;
}
