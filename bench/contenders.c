/* The contenders, each as a run on one batch: the engine's operations through its C interface, and the rivals in C. */
#include "bench.h"

uint8_t matrix[CORKHOLLOW_MOST_MATRIX_BYTES], program[CORKHOLLOW_MOST_PROGRAM_BYTES];
size_t matrix_length, program_length;
uint64_t outputs[CORKHOLLOW_OUTPUTS];
uint8_t samples[CORKHOLLOW_LANES];
int16_t signed_samples[CORKHOLLOW_LANES];
uint32_t refused;

static uint64_t registers[CORKHOLLOW_REGISTERS], sliced[COLUMNS];
static uint8_t compiled[CORKHOLLOW_MOST_PROGRAM_BYTES];

static void start_with(const struct batch *b, uint32_t budget) {
    uint32_t position, count;
    bool finished;
    refused |= corkhollow_start(program, program_length, b->words, COLUMNS, registers, CORKHOLLOW_REGISTERS, outputs, CORKHOLLOW_OUTPUTS,
                                budget, &position, &count, &finished);
}

static void start(const struct batch *b) { start_with(b, UINT32_MAX); }
static void start_none(const struct batch *b) { start_with(b, 0); }

static void check(const struct batch *b) {
    (void)b;
    size_t n_registers, n_inputs, n_outputs, n_rows;
    uint32_t count;
    refused |= corkhollow_check(program, program_length, &n_registers, &n_inputs, &n_outputs, &n_rows, &count);
}

static void slice(const struct batch *b) { refused |= corkhollow_slice(COLUMNS, b->strings, sizeof b->strings, sliced, COLUMNS); }

static void read_samples(const struct batch *b) {
    refused |= corkhollow_samples(ROWS, b->outputs, CORKHOLLOW_OUTPUTS, samples, sizeof samples);
}

static void read_signed(const struct batch *b) {
    refused |= corkhollow_signed_samples(ROWS, b->outputs, CORKHOLLOW_OUTPUTS, b->sign, signed_samples, CORKHOLLOW_LANES);
}

static void draw(const struct batch *b) {
    refused |= corkhollow_draw(program, program_length, b->strings, sizeof b->strings, samples, sizeof samples);
}

static void draw_signed(const struct batch *b) {
    refused |= corkhollow_draw_signed(program, program_length, b->strings, sizeof b->strings, b->sign, signed_samples, CORKHOLLOW_LANES);
}

static void compile(const struct batch *b) {
    (void)b;
    size_t length;
    refused |= corkhollow_compile(matrix, matrix_length, compiled, sizeof compiled, &length);
}

static void by_switch(const struct batch *b) { switch_run(program, b->words, registers, outputs); }
static void by_switch_best(const struct batch *b) { switch_run_best(program, b->words, registers, outputs); }
static void straight(const struct batch *b) { straight_run(b->words, outputs); }
static void straight_best(const struct batch *b) { straight_run_best(b->words, outputs); }
static void cdt(const struct batch *b) { cdt_run(b->numbers, samples); }
static void cdt_best(const struct batch *b) { cdt_run_best(b->numbers, samples); }

const struct contender contenders[CONTENDERS] = {
    [START] = {"engine: start (its check and its run)", start, true, true},
    [START_NONE] = {"engine: start, budget 0 (its check)", start_none, false, true},
    [CHECK] = {"engine: check", check, false, true},
    [SLICE] = {"engine: slice", slice, true, false},
    [SAMPLES] = {"engine: samples", read_samples, true, false},
    [SIGNED] = {"engine: signed samples", read_signed, true, false},
    [DRAW] = {"engine: draw (slice, start, samples)", draw, true, false},
    [DRAW_SIGNED] = {"engine: draw signed", draw_signed, true, false},
    [COMPILE] = {"engine: compile", compile, false, true},
    [SWITCH] = {"(a) C interpreter, -O2", by_switch, true, true},
    [STRAIGHT] = {"(b) straight-line C, -O2", straight, true, true},
    [CDT] = {"(c) CDT scan in C, -O2", cdt, true, false},
    [SWITCH_BEST] = {"extra: (a), best flags", by_switch_best, true, true},
    [STRAIGHT_BEST] = {"extra: (b), best flags", straight_best, true, true},
    [CDT_BEST] = {"extra: (c), best flags", cdt_best, true, false},
};
