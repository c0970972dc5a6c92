/* Writes a made-up call to standard output: 1.5 s, 16-bit little-endian mono at 8,000 samples a second, 50 frames of
 * 240. Vowels (pulses with a pitch contour through three formants), a hiss and silence. Whole numbers alone, so that
 * every machine writes the same bytes; examples/call.raw is what it writes. */
#include <stdint.h>
#include <stdio.h>

enum { RATE = 8000, FRAME = 240, FORMANTS = 3, ONE = 16384 };

/* A resonance y = x + a y1 - b y2 in units of 1/16384, for a formant at F Hz with a bandwidth of B Hz:
 * a = 2 r cos(2 pi F / 8000) and b = r^2 with r = exp(-pi B / 8000). */
struct formant {
    int32_t a, b;
};

/* Some frames of one sound. The pitch runs from one to the other, in Hz; a hiss has none. */
struct sound {
    int frames;
    int32_t loud, pitch[2];
    struct formant formant[FORMANTS];
};

#define A_ {{26677, 15386}, {20730, 15266}, {-10589, 14910}}   /* F 730, 1090, 2440; B 80, 90, 120 */
#define I_ {{31288, 15630}, {-7114, 15146}, {-22277, 14910}}   /* F 270, 2290, 3010; B 60, 100, 120 */
#define U_ {{31121, 15630}, {24529, 15266}, {-5857, 14910}}    /* F 300, 870, 2240; B 60, 90, 120 */
#define S_ {{-13223, 12945}, {-25873, 11967}, {-19040, 11063}} /* F 2600, 3500, 3000; B 300, 400, 500 */

static const struct sound sounds[] = {
    {4, 0, {0, 0}, A_},  {11, 11000, {125, 98}, A_},  {5, 2500, {0, 0}, S_},   {12, 24000, {180, 230}, I_},
    {3, 0, {0, 0}, I_},  {6, 6000, {140, 110}, U_},   {5, 9000, {110, 92}, A_}, {4, 200, {0, 0}, S_},
};

static uint32_t state = 1;

/* A whole number from -1000 to 1000 that the order of calls fixes. */
static int32_t noise(void)
{
    state = state * 1664525u + 1013904223u;
    return (int32_t)((state >> 8) % 2001u) - 1000;
}

int main(void)
{
    int64_t y[FORMANTS][2] = {{0, 0}, {0, 0}, {0, 0}}, phase = 0;
    for (size_t s = 0; s < sizeof sounds / sizeof *sounds; s++) {
        const struct sound *sound = &sounds[s];
        const int32_t samples = sound->frames * FRAME;
        for (int32_t n = 0; n < samples; n++) {
            /* a pulse each time that the phase passes a whole turn, and a little breath */
            const int64_t pitch = sound->pitch[0] + (int64_t)(sound->pitch[1] - sound->pitch[0]) * n / samples;
            int64_t x = pitch ? noise() / 40 : noise() / 2;
            phase += pitch;
            if (pitch && phase >= RATE) {
                phase -= RATE;
                x += 1000;
            }
            /* the first and the last 120 samples of a sound are ramps */
            const int32_t edge = n < samples - n ? n : samples - n;
            x = x * sound->loud * (edge < 120 ? edge : 120) / (120 * 100);
            for (int i = 0; i < FORMANTS; i++) {
                x += (sound->formant[i].a * y[i][0] - sound->formant[i].b * y[i][1]) / ONE;
                y[i][1] = y[i][0];
                y[i][0] = x;
            }
            int32_t sample = (int32_t)(x / 64);
            if (sample > 32767) sample = 32767;
            if (sample < -32768) sample = -32768;
            const uint32_t bits = (uint32_t)sample & 0xffffu;
            putchar((int)(bits & 0xff));
            putchar((int)(bits >> 8));
        }
    }
    if (fflush(stdout) != 0 || ferror(stdout)) {
        perror("make_call");
        return 1;
    }
    return 0;
}
