/* Makes a loss pattern of a call, for the program losses: a line for each frame with its index, and + where it arrives or
 * - where it is lost. */
#define PROGRAM "pattern"
#include "g7231.h"
#include "shared.h"

static const char usage[] =
    "pattern FILE [EVERY]        every tenth frame of a call is lost, or every EVERY-th; with 0 none is\n"
    "pattern FILE PERCENT SEED   so many in a hundred are lost, those that the seed draws\n"
    "\n"
    "FILE is 16-bit little-endian mono at 8,000 samples a second. A line for each frame of 30 ms: six hexadecimal digits of its\n"
    "index, a space, and + where it arrives or - where it is lost. Pipe it into losses, which takes 10,000 lines: five minutes\n"
    "of a call. Exit status: 0 done; 1 the call cannot be read or coded; 2 bad usage.\n";

/* A whole number of at most nine digits. */
static int number(const char *word, unsigned long *to)
{
    const size_t length = strlen(word);
    *to = strtoul(word, NULL, 10);
    return length > 0 && length <= 9 && strspn(word, "0123456789") == length;
}

/* Whether a frame is lost, counted from 1. */
struct rule {
    unsigned long every, percent;
    uint32_t state;
    int drawn;
};

static int lost(struct rule *rule, size_t frame)
{
    if (!rule->drawn) return rule->every > 0 && frame % rule->every == 0;
    rule->state = (rule->state * 1103515245u + 12345u) % 2147483648u;
    return rule->state / 65536 % 100 < rule->percent;
}

int main(int words, char **word)
{
    struct rule rule = {10, 0, 0, words == 4};
    unsigned long seed = 0;
    if (words == 2 && (strcmp(word[1], "--help") == 0 || strcmp(word[1], "-h") == 0)) return fputs(usage, stdout), 0;
    if (words < 2 || words > 4 || word[1][0] == '-' || (words == 3 && !number(word[2], &rule.every)) ||
        (words == 4 && (!number(word[2], &rule.percent) || rule.percent > 100 || !number(word[3], &seed))))
        return fputs(usage, stderr), 2;
    rule.state = (uint32_t)seed;

    size_t frames;
    int16_t *samples = read_call(word[1], &frames);
    g7231_coder coder;
    g7231_frame frame;
    DONE(g7231_new_coder, (&coder));
    for (size_t k = 0; k < frames; k++) {
        DONE(g7231_code_frame, (&coder, samples + k * FRAME, SPAN, spacing_hz, &frame));
        printf("%06" PRIX32 " %c\n", frame.index, lost(&rule, k + 1) ? '-' : '+');
    }
    free(samples);
    if (fflush(stdout) != 0 || ferror(stdout)) return fputs(PROGRAM ": standard output cannot be written\n", stderr), 1;
    return 0;
}
