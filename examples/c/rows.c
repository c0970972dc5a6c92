/* Code rows of a fleet's own: writes the built-in ones as a file to begin from, tells what a file holds, and codes a
 * call over a file's rows, with the other end beside it. `rows --help` has the words. */
#define PROGRAM "rows"
#include <errno.h>

#include "g7231.h"
#include "shared.h"

/* Bytes of a file: its last two numbers, all but its notes, and the most that it may have. */
enum { END = 8, LEAST = 2 * G7231_ROWS + END, MOST = 32768 };

static const char notes[] = "The built-in code rows of G.723.1: 2,560 numbers, bands 0, 1 and 2 in row order.\n";

/* Numbers of some bytes, low byte first. */
static void put(unsigned char *to, int32_t number, int bytes)
{
    for (int i = 0; i < bytes; i++) to[i] = (unsigned char)((uint32_t)number >> 8 * i & 0xff);
}

static uint32_t number_at(const unsigned char *from, int bytes)
{
    uint32_t number = 0;
    for (int i = 0; i < bytes; i++) number |= (uint32_t)from[i] << 8 * i;
    return number;
}

/* A number of the rows, which are the first of the file's last 5,128 bytes. */
static int row_number(const unsigned char *file, size_t length, size_t at)
{
    const int number = (int)number_at(file + length - LEAST + 2 * at, 2);
    return number < 32768 ? number : number - 65536;
}

/* Ends the program where a file cannot be opened, read or written. */
static void fail(const char *name)
{
    fprintf(stderr, "rows: %s: %s\n", name, strerror(errno));
    exit(1);
}

/* ---- a file of the built-in rows */

/* The built-in rows, as the decoder shows them: after the resting set an index gives that set and its rows, added up
 * with nothing to round. */
static void built_in(int16_t rows[G7231_ROWS])
{
    float resting[G7231_ORDER], set[G7231_ORDER];
    DONE(g7231_resting_set, (resting));
    for (int k = 0; k < 256; k++) {
        const uint8_t bands[G7231_BANDS] = {(uint8_t)k, (uint8_t)k, (uint8_t)k};
        uint32_t index;
        DONE(g7231_combine_lsp_index, (bands, &index));
        DONE(g7231_decode_lsp_freq, (index, resting, set));
        for (size_t band = 0, line = 0; band < G7231_BANDS; band++) {
            size_t start, count;
            DONE(g7231_row, (rows, G7231_ROWS, (uint32_t)band, (uint32_t)k, &start, &count));
            for (size_t i = 0; i < count; i++, line++) rows[start + i] = (int16_t)(set[line] - resting[line]);
        }
    }
}

static int write_file(const char *name)
{
    enum { NOTES = sizeof notes - 1 };
    int16_t rows[G7231_ROWS] = {0};
    unsigned char bytes[NOTES + LEAST];
    built_in(rows);
    memcpy(bytes, notes, NOTES);
    for (size_t i = 0; i < G7231_ROWS; i++) put(bytes + NOTES + 2 * i, rows[i], 2);
    put(bytes + sizeof bytes - 8, LEAST, 4);
    put(bytes + sizeof bytes - 4, G7231_ROWS, 4);

    FILE *file = fopen(name, "wbx"); /* x: a file that is there stays, since it may be a fleet's own */
    if (!file) fail(name);
    if (fwrite(bytes, 1, sizeof bytes, file) != sizeof bytes || fclose(file) != 0) fail(name);
    printf("%s: the built-in rows, after %d bytes of notes\n", name, NOTES);
    return 0;
}

/* ---- a file of any rows */

/* Says where a number stands among the rows. */
static void print_place(const int16_t rows[G7231_ROWS], size_t at)
{
    for (uint32_t band = 0; band < G7231_BANDS; band++)
        for (uint32_t index = 0; index < 256; index++) {
            size_t start, count;
            DONE(g7231_row, (rows, G7231_ROWS, band, index, &start, &count));
            if (at >= start && at - start < count)
                fprintf(stderr, "band %" PRIu32 ", row %" PRIu32 ", number %zu", band, index, at - start);
        }
}

/* Ends the program with the refusal of a file, and what in it is refused. */
static void refused(const char *name, const unsigned char *file, size_t length, const int16_t rows[G7231_ROWS],
                    uint32_t status)
{
    fprintf(stderr, "rows: %s: refused with %" PRIu32 ": %s\n  ", name, status, g7231_refusal(status));
    if (length > MOST) {
        fprintf(stderr, "it has more than %d bytes", MOST);
    } else if (length < LEAST) {
        fprintf(stderr, "it has %zu bytes, and the least is %d", length, LEAST);
    } else if (status == G7231_ROW_FILE) {
        fprintf(stderr, "it ends with %" PRIu32 " and %" PRIu32 ", not with %d and %d", number_at(file + length - 8, 4),
                number_at(file + length - 4, 4), LEAST, G7231_ROWS);
    } else {
        size_t at = 0;
        while (at < G7231_ROWS - 1 && abs(row_number(file, length, at)) <= 8192) at++;
        print_place(rows, at);
        fprintf(stderr, " is %d", row_number(file, length, at));
    }
    fputc('\n', stderr);
    exit(1);
}

/* Loads a file's rows, or ends the program; answers the file's length. One byte more than a file may have is read, and
 * no more: the library refuses that length. */
static size_t load(const char *name, unsigned char bytes[MOST + 1], int16_t rows[G7231_ROWS])
{
    FILE *file = fopen(name, "rb");
    if (!file) fail(name);
    const size_t length = fread(bytes, 1, MOST + 1, file);
    if (ferror(file)) fail(name);
    fclose(file);
    const uint32_t status = g7231_load_rows(bytes, length, rows, G7231_ROWS);
    if (status != G7231_DONE) refused(name, bytes, length, rows, status);
    return length;
}

static int check(const char *name)
{
    static unsigned char bytes[MOST + 1];
    int16_t rows[G7231_ROWS] = {0};
    const size_t length = load(name, bytes, rows), before = length - LEAST;
    int least = rows[0], greatest = rows[0];
    uint64_t hashed = NOTHING;
    for (size_t i = 1; i < G7231_ROWS; i++) {
        if (rows[i] < least) least = rows[i];
        if (rows[i] > greatest) greatest = rows[i];
    }
    hash(&hashed, bytes + before, LEAST);
    printf("%s: a file of code rows\n", name);
    printf("  notes    %zu bytes\n", before);
    printf("  numbers  %d, from %d to %d\n", G7231_ROWS, least, greatest);
    printf("  hash     %016" PRIx64 "\n", hashed);
    return 0;
}

/* Codes a call over a file's rows, and decodes it over the same. */
static int code(const char *name, const char *call)
{
    static unsigned char bytes[MOST + 1];
    int16_t rows[G7231_ROWS] = {0};
    load(name, bytes, rows);
    size_t frames;
    int16_t *samples = read_call(call, &frames);
    struct hashes hashes = {NOTHING, NOTHING};
    float set[G7231_ORDER], next[G7231_ORDER];
    g7231_coder coder;
    DONE(g7231_new_coder, (&coder));
    DONE(g7231_resting_set, (set));
    for (size_t k = 0; k < frames; k++) {
        g7231_frame frame;
        DONE(g7231_code_frame_in, (rows, G7231_ROWS, &coder, samples + k * FRAME, SPAN, spacing_hz, &frame));
        hash_frame(&hashes, &frame, &coder);
        DONE(g7231_decode_lsp_freq_in, (rows, G7231_ROWS, frame.index, set, next));
        memcpy(set, next, sizeof set);
        same(set, coder.set, sizeof set, k, "the ends have different sets");
    }
    print_hashes(&hashes);
    free(samples);
    return 0;
}

int main(int words, char **word)
{
    static const char usage[] =
        "rows: code rows of a fleet's own\n\n"
        "  rows write FILE       write the built-in rows, with a line of notes in front, for a fleet to begin from;\n"
        "                        a file that is there stays as it is\n"
        "  rows check FILE       tell what a file holds: the length of its notes, its least and its greatest number,\n"
        "                        and the hash of all after the notes, the same at both ends where the rows are\n"
        "  rows code FILE CALL   code a call over a file's rows, decode it over the same, and print its hashes; a\n"
        "                        call is 16-bit little-endian mono at 8,000 samples a second\n\n"
        "A file has notes of any content, 2,560 numbers of 16 bits, and two of 32 bits, 5,128 and 2,560, each with\n"
        "its low byte first. It has at most 32,768 bytes. Where one is refused, the reason is told.\n\n"
        "Exit status: 0 done; 1 a file is refused, or cannot be read or written; 2 bad usage.\n";
    if (words == 2 && (strcmp(word[1], "--help") == 0 || strcmp(word[1], "-h") == 0)) return fputs(usage, stdout), 0;
    if (words == 3 && strcmp(word[1], "write") == 0) return write_file(word[2]);
    if (words == 3 && strcmp(word[1], "check") == 0) return check(word[2]);
    if (words == 4 && strcmp(word[1], "code") == 0) return code(word[2], word[3]);
    return fputs(usage, stderr), 2;
}
