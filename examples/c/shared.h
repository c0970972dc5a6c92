/* What examples/c/call.c, examples/c/rows.c, examples/c/gateway.c and examples/c/pattern.c share, each as much of it as it
 * needs. A program defines PROGRAM, its name in messages, before this. */
#ifndef SHARED_H
#define SHARED_H

#include <inttypes.h>
#include <stdio.h>
#include <stdlib.h>
#include <string.h>

#include "g7231.h"

enum {
    FRAME = G7231_FRAME,
    SPAN = G7231_SPAN,
    AROUND = (SPAN - FRAME) / 2 /* samples looked at before a frame, and after it */
};

static const float spacing_hz = 31.25f;

/* Every call must be done, but those whose status a program looks at itself. */
static inline void done(uint32_t status, const char *door)
{
    if (status == G7231_DONE) return;
    fprintf(stderr, PROGRAM ": %s refused: %s\n", door, g7231_refusal(status));
    exit(1);
}
#define DONE(door, arguments) done(door arguments, #door)

/* Ends the program where two have not the same bits. */
static inline void same(const void *one, const void *other, size_t bytes, size_t frame, const char *part)
{
    if (memcmp(one, other, bytes) == 0) return;
    fprintf(stderr, PROGRAM ": frame %zu: %s\n", frame, part);
    exit(1);
}

/* ---- hashes of what was answered (FNV-1a, 64 bits, low byte first); no struct here has gaps between its fields */

#define NOTHING 14695981039346656037u

static inline void hash(uint64_t *of, const void *what, size_t bytes)
{
    const unsigned char *byte = what;
    for (size_t i = 0; i < bytes; i++) *of = (*of ^ byte[i]) * 1099511628211u;
}

/* Of a call: what is sent of each frame, and all that the frame call answers and keeps. */
struct hashes {
    uint64_t coded, called;
};

static inline void hash_frame(struct hashes *of, const g7231_frame *frame, const g7231_coder *coder)
{
    hash(&of->coded, &frame->index, sizeof frame->index);
    hash(&of->coded, frame->pitch, sizeof frame->pitch);
    hash(&of->called, frame, sizeof *frame);
    hash(&of->called, coder, sizeof *coder);
}

static inline void print_hashes(const struct hashes *of)
{
    printf("indices and lags      %016" PRIx64 "\n", of->coded);
    printf("the frame call        %016" PRIx64 "\n", of->called);
}

/* ---- the file of a call */

/* The samples with 60 zeros before and after them, and zeros where the last frame is not whole; ends the program where
 * it cannot. */
static inline int16_t *read_call(const char *name, size_t *frames)
{
    FILE *file = fopen(name, "rb");
    if (!file) {
        fprintf(stderr, PROGRAM ": ");
        perror(name);
        exit(1);
    }
    size_t count = 0, room = 1 << 16, got = 0;
    int16_t *samples = calloc(room, sizeof *samples);
    unsigned char pair[2];
    while (samples && (got = fread(pair, 1, 2, file)) == 2) {
        if (count + SPAN >= room) {
            int16_t *more = realloc(samples, 2 * room * sizeof *samples);
            if (!more) free(samples);
            samples = more;
            if (!samples) break;
            memset(samples + room, 0, room * sizeof *samples);
            room *= 2;
        }
        const int sample = pair[0] | pair[1] << 8;
        samples[AROUND + count++] = (int16_t)(sample < 32768 ? sample : sample - 65536);
    }
    if (!samples || ferror(file) || got == 1 || count == 0) {
        fprintf(stderr, PROGRAM ": %s: %s\n", name,
                !samples       ? "no memory"
                : ferror(file) ? "it cannot be read"
                : count == 0   ? "it has no samples"
                               : "it ends with half a sample");
        exit(1);
    }
    fclose(file);
    *frames = (count + FRAME - 1) / FRAME;
    return samples;
}

#endif
