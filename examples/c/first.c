/* Codes speech frame by frame and prints a line for each: 16-bit little-endian mono at 8,000 samples a second. */
#include <g7231.h>
#include <inttypes.h>
#include <stdio.h>
#include <stdlib.h>
#include <string.h>

enum { FRAME = G7231_FRAME, AROUND = 60 /* samples looked at before a frame, and after it */ };

/* Reads so many samples, with zeros for those that the file lacks; tells how many it had. */
static size_t samples_from(FILE *file, int16_t *to, size_t count)
{
    memset(to, 0, count * sizeof *to);
    const size_t bytes = fread(to, 1, count * sizeof *to, file); /* x86-64 has the low byte first, as the file has */
    if (!ferror(file) && bytes % sizeof *to == 0) return bytes / sizeof *to;
    fprintf(stderr, "first: %s\n", ferror(file) ? "the file cannot be read" : "the file ends with half a sample");
    exit(1);
}

int main(int words, char **word)
{
    int16_t samples[G7231_SPAN] = {0}; /* 60 before the frame (zeros at first), its 240, 60 after it */
    float spacing_hz = 31.25f;         /* lines are held so far apart */
    g7231_coder coder;
    g7231_frame frame;

    const int help = words == 2 && strcmp(word[1], "--help") == 0;
    if (help || words < 2 || words > 3 || (words == 3 && sscanf(word[2], "%f", &spacing_hz) != 1)) {
        fputs("first FILE [SPACING_HZ]: the index and the pitch lags of each frame\n", help ? stdout : stderr);
        return help ? 0 : 2;
    }
    FILE *file = fopen(word[1], "rb");
    if (!file) return perror(word[1]), 1;

    g7231_new_coder(&coder);
    size_t left = samples_from(file, samples + AROUND, FRAME + AROUND);
    for (size_t n = 0; left > 0; n++) {
        const uint32_t status = g7231_code_frame(&coder, samples, G7231_SPAN, spacing_hz, &frame);
        if (status != G7231_DONE) { /* the coder and the frame are as they were */
            fprintf(stderr, "first: frame %zu is refused with %" PRIu32 ": %s\n", n, status, g7231_refusal(status));
            return 1;
        }
        printf("frame %3zu  index %8" PRIu32 "  lags %3" PRIu32 " %3" PRIu32 "\n", n, frame.index, frame.pitch[0],
               frame.pitch[1]);
        /* a frame on: what was ahead is its first part */
        memmove(samples, samples + FRAME, 2 * AROUND * sizeof *samples);
        left = (left > FRAME ? left - FRAME : 0) + samples_from(file, samples + 2 * AROUND, FRAME);
    }
    fclose(file);
    return 0;
}
