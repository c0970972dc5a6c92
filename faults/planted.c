#include "planted.h"

#include <string.h>

#include "g7231.h"
#include "inputs.h"

/* lsp_to_lpc(const float lsp[10], float a[11]); volatile, so that the compiler leaves the faults in */
#define LSP(argument) ((volatile float *)(argument)[0].place)
#define A(argument) ((volatile float *)(argument)[1].place)

static uint32_t well(const union argument *argument) { return g7231_lsp_to_lpc(argument[0].place, argument[1].place); }

static uint32_t reads_past(const union argument *argument)
{
    (void)LSP(argument)[10];
    return well(argument);
}

static uint32_t reads_before(const union argument *argument)
{
    (void)LSP(argument)[-1];
    return well(argument);
}

static uint32_t writes_past(const union argument *argument)
{
    A(argument)[11] = 1;
    return well(argument);
}

static uint32_t writes_before(const union argument *argument)
{
    A(argument)[-1] = 1;
    return well(argument);
}

static uint32_t writes_refused(const union argument *argument)
{
    const uint32_t status = well(argument);
    if (status != 0) A(argument)[10] = 0;
    return status;
}

/* the same number comes back, but a signalling NaN becomes a quiet one */
static uint32_t quiets_refused(const union argument *argument)
{
    const volatile float one = 1;
    const uint32_t status = well(argument);
    for (int i = 0; i < 11 && status != 0; i++) A(argument)[i] = A(argument)[i] * one;
    return status;
}

static uint32_t alters_input(const union argument *argument)
{
    const uint32_t status = well(argument);
    LSP(argument)[3] = LSP(argument)[3] + 1;
    return status;
}

/* nothing is different afterwards: only memory that cannot be written shows it */
static uint32_t borrows_input(const union argument *argument)
{
    const float kept = LSP(argument)[3];
    LSP(argument)[3] = kept;
    return well(argument);
}

static uint32_t reads_answer(const union argument *argument)
{
    const float before = A(argument)[5];
    const uint32_t status = well(argument);
    if (status == 0 && before == before) A(argument)[5] = 1;
    return status;
}

static uint32_t answers_otherwise(const union argument *argument)
{
    const uint32_t status = well(argument);
    if (status == 0) A(argument)[4] = A(argument)[4] + 1;
    return status;
}

static uint32_t loops(const union argument *argument)
{
    const volatile int on = 1;
    while (on) continue;
    return well(argument);
}

/* doors with more parameters: a door itself, and its buffers by name */
static uint32_t asked(const char *door, const union argument *argument) { return doors[door_named(door)].safe(argument); }

static void *lent(const char *door, const union argument *argument, const char *name)
{
    const struct door *one = &doors[door_named(door)];
    for (unsigned i = 0; i < one->count; i++)
        if (strcmp(one->parameter[i].name, name) == 0) return argument[i].place;
    return NULL;
}

static uint32_t moves_on_refused(const union argument *argument)
{
    const uint32_t status = asked("code_frame", argument);
    volatile float *const memory = lent("code_frame", argument, "weighted");
    if (status == G7231_FRAME_LENGTH) memory[144] = 1;
    return status;
}

static uint32_t reads_a_361st(const union argument *argument)
{
    const volatile int16_t *const samples = lent("code_frame", argument, "samples");
    const uint32_t status = asked("code_frame", argument);
    if (status == G7231_DONE) (void)samples[360];
    return status;
}

static uint32_t stores_then_tests(const union argument *argument)
{
    const uint32_t status = asked("load_rows", argument);
    volatile int16_t *const rows = lent("load_rows", argument, "rows");
    if (status == G7231_ROW_NUMBER) rows[0] = (int16_t)~rows[0];
    return status;
}

static uint32_t looks_at_the_file(const union argument *argument)
{
    const uint32_t status = asked("load_rows", argument);
    const volatile uint8_t *const file = lent("load_rows", argument, "file");
    if (status == G7231_LENGTH) (void)file[0];
    return status;
}

static uint32_t looks_at_a_2561st(const union argument *argument)
{
    const uint32_t status = asked("decode_lsp_freq_in", argument);
    const volatile int16_t *const rows = lent("decode_lsp_freq_in", argument, "rows");
    if (status == G7231_DONE) (void)rows[G7231_ROWS];
    return status;
}

static uint32_t places_no_row(const union argument *argument)
{
    const uint32_t status = asked("row", argument);
    volatile size_t *const start = lent("row", argument, "start");
    if (status == G7231_CHOICE) *start = 0;
    return status;
}

/* The history of the combined filter, and whether its last places are not in use. */
static volatile uint32_t *history(const union argument *argument) { return lent("run_combined", argument, "p_hist"); }

static int is_shorter(const union argument *argument)
{
    return argument[parameter_of(&doors[door_named("run_combined")], LAG_LIMIT)].number == LIMIT_GATEWAY;
}

static uint32_t writes_a_place_not_in_use(const union argument *argument)
{
    const uint32_t status = asked("run_combined", argument);
    if (status == G7231_DONE && is_shorter(argument)) history(argument)[G7231_GATEWAY_PAST] = 0;
    return status;
}

static uint32_t refuses_for_a_place_not_in_use(const union argument *argument)
{
    const int bad = (history(argument)[G7231_PAST - 1] & 0x7f800000) == 0x7f800000;
    if (is_shorter(argument) && bad) return G7231_NOT_FINITE;
    return asked("run_combined", argument);
}

/* what the table's safe call answers where the limit of a memory is another afterwards */
static uint32_t alters_the_limit(const union argument *argument)
{
    const uint32_t status = asked("run_combined", argument);
    return status == G7231_DONE ? ALTERED : status;
}

static uint32_t makes_what_it_refuses(const union argument *argument)
{
    const uint32_t status = asked("new_filter_memory", argument);
    volatile uint32_t *const limit = lent("new_filter_memory", argument, "lag_limit");
    if (status == G7231_CHOICE) *limit = 0;
    return status;
}

const struct planted planted[PLANTED] = {
    {"reads one past the end", "lsp_to_lpc", reads_past, 1, "buffer lsp, end at the page"},
    {"reads one before the start", "lsp_to_lpc", reads_before, 1, "buffer lsp, start at the page"},
    {"writes one past the end", "lsp_to_lpc", writes_past, 1, "buffer a, end at the page"},
    {"writes one before the start", "lsp_to_lpc", writes_before, 1, "wrote outside a"},
    {"writes on refusal", "lsp_to_lpc", writes_refused, 1, "refused with 5 and altered a"},
    {"quiets a signalling NaN on refusal", "lsp_to_lpc", quiets_refused, 1, "refused with 5 and altered a"},
    {"alters an input", "lsp_to_lpc", alters_input, 1, "altered lsp, which is only read"},
    {"writes an input as it was", "lsp_to_lpc", borrows_input, 1, "buffer lsp, start at the page"},
    {"reads what it is to write", "lsp_to_lpc", reads_answer, 1, "another answer"},
    {"safe is not bare", "lsp_to_lpc", answers_otherwise, 0, "another answer"},
    {"loops for ever", "lsp_to_lpc", loops, 1, "did not come back"},
    {"moves a memory on and refuses", "code_frame", moves_on_refused, 1, "refused with 8 and altered weighted"},
    {"reads a 361st sample", "code_frame", reads_a_361st, 1, "buffer samples, end at the page"},
    {"stores rows before it tests them", "load_rows", stores_then_tests, 1, "refused with 11 and altered rows"},
    {"looks at the file of a wrong buffer", "load_rows", looks_at_the_file, 1, "buffer file, end at the page"},
    {"reads a 2,561st number", "decode_lsp_freq_in", looks_at_a_2561st, 1, "buffer rows, end at the page"},
    {"places a row that it refuses", "row", places_no_row, 1, "refused with 2 and altered start"},
    {"writes a place that is not in use", "run_combined", writes_a_place_not_in_use, 1,
     "altered p_hist where it is not in use"},
    {"refuses for a place that is not in use", "run_combined", refuses_for_a_place_not_in_use, 1, "another answer"},
    {"alters the limit of a memory", "run_combined", alters_the_limit, 1, "answered 4294967295, which is no status"},
    {"makes a memory that it refuses", "new_filter_memory", makes_what_it_refuses, 1,
     "refused with 2 and altered lag_limit"},
};
