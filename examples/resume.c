/*
 * A run that is stopped because the random source is exhausted, and resumed when it delivers again: on the same words the samples are
 * those of the run without a stop. What has to be kept from stop to resume is the position, the registers, the outputs and the words
 * already read.
 */
#include <inttypes.h>
#include <string.h>

#include "common.h"

enum { ROWS = 20, COLUMNS = 128, A_LINE = 16 };

/* The fields of a program file that are read here: each is 16 bits, lowest byte first. */
enum { HEADER = 16, LENGTH = 0, KIND = 2, INPUT_NUMBER = 6, INPUT = 3 };

/*
 * The words that the source has each time it is asked; they add up to 128. The first stops come early, as most lanes hit a row within a few
 * words: a later stop would find little left to do.
 */
static const size_t deliveries[] = {3, 1, 40, 84};

struct program {
    uint8_t bytes[CORKHOLLOW_MOST_PROGRAM_BYTES];
    size_t length, registers, inputs, outputs, rows;
    uint32_t count;
};

struct run {
    uint64_t registers[CORKHOLLOW_REGISTERS], outputs[CORKHOLLOW_OUTPUTS];
    uint32_t position, carried_out; /* carried out in all calls together */
    bool finished;
};

/* A table in which sample v has the weight 20 - v, compiled. */
static void prepare(struct program *p) {
    uint32_t weights[ROWS];
    uint8_t matrix[CORKHOLLOW_MATRIX_LENGTH(ROWS, COLUMNS)];
    size_t length;
    for (uint32_t v = 0; v < ROWS; v++) weights[v] = ROWS - v;
    must("corkhollow_build", corkhollow_build(weights, ROWS, COLUMNS, false, matrix, sizeof matrix, &length));
    must("corkhollow_compile", corkhollow_compile(matrix, length, p->bytes, sizeof p->bytes, &p->length));
    must("corkhollow_check",
         corkhollow_check(p->bytes, p->length, &p->registers, &p->inputs, &p->outputs, &p->rows, &p->count));
}

static unsigned field(const uint8_t *at) { return at[0] | (unsigned)at[1] << 8; }

/* How far the program runs on its first `have` words: the position of the first instruction that reads a later one, or the count. */
static uint32_t reach(const struct program *p, size_t have) {
    const uint8_t *at = p->bytes + HEADER;
    for (uint32_t i = 0; i < p->count; i++) {
        if (field(at + KIND) == INPUT && field(at + INPUT_NUMBER) >= have) return i;
        at += field(at + LENGTH);
    }
    return p->count;
}

static void start(const struct program *p, const uint64_t *words, struct run *r, uint32_t budget) {
    must("corkhollow_start",
         corkhollow_start(p->bytes, p->length, words, COLUMNS, r->registers, CORKHOLLOW_REGISTERS, r->outputs, CORKHOLLOW_OUTPUTS,
                          budget, &r->position, &r->carried_out, &r->finished));
}

static void resume(const struct program *p, const uint64_t *words, struct run *r, uint32_t budget) {
    uint32_t carried_out;
    must("corkhollow_resume",
         corkhollow_resume(p->bytes, p->length, words, COLUMNS, r->registers, CORKHOLLOW_REGISTERS, r->outputs, CORKHOLLOW_OUTPUTS,
                           r->position, budget, &r->position, &carried_out, &r->finished));
    r->carried_out += carried_out;
}

static void report(size_t have, const struct run *r, uint32_t before) {
    printf("%5zu of %d words: %s at %5" PRIu32 ", %5" PRIu32 " instructions carried out\n", have, COLUMNS,
           r->finished ? "finished" : "stopped ", r->position, r->carried_out - before);
}

/*
 * Runs as far as the words reach, each time that the source delivers. Tells the position of the first stop.
 *
 * A resume is proved to end as the unbroken run does on the same inputs, also where words that no instruction before the position reads are
 * filled in between. Here the words not yet delivered are 0 until they come, and the budget ends before the first that would read one.
 */
static uint32_t run_with_stops(const struct program *p, const uint64_t *words, struct run *r) {
    uint64_t inputs[COLUMNS] = {0};
    size_t have = deliveries[0];
    memcpy(inputs, words, have * sizeof *words);
    start(p, inputs, r, reach(p, have));
    report(have, r, 0);
    uint32_t first_stop = r->position;
    for (size_t i = 1; i < sizeof deliveries / sizeof *deliveries; i++) {
        uint32_t before = r->carried_out;
        memcpy(inputs + have, words + have, deliveries[i] * sizeof *words);
        have += deliveries[i];
        resume(p, inputs, r, reach(p, have) - r->position);
        report(have, r, before);
    }
    return first_stop;
}

static void read_samples(const struct program *p, const struct run *r, uint8_t *samples) {
    must("corkhollow_samples", corkhollow_samples(p->rows, r->outputs, p->outputs, samples, CORKHOLLOW_LANES));
}

static void print_samples(const char *title, const uint8_t *samples) {
    printf("\nsamples %s\n", title);
    for (int j = 0; j < CORKHOLLOW_LANES; j++) printf("%4d%s", samples[j], j % A_LINE == A_LINE - 1 ? "\n" : "");
}

static int differing(const uint8_t *some, const uint8_t *others) {
    int differ = 0;
    for (int j = 0; j < CORKHOLLOW_LANES; j++) differ += some[j] != others[j];
    return differ;
}

static bool same_end(const struct program *p, const struct run *a, const struct run *b) {
    return a->finished && b->finished && a->position == b->position && a->carried_out == b->carried_out &&
           memcmp(a->registers, b->registers, p->registers * sizeof *a->registers) == 0 &&
           memcmp(a->outputs, b->outputs, p->outputs * sizeof *a->outputs) == 0;
}

int main(void) {
    static struct program program;
    static struct run stopped, whole, cleared; /* the registers of `cleared` are 0 until it is resumed */
    uint64_t words[COLUMNS];
    uint8_t with[CORKHOLLOW_LANES], without[CORKHOLLOW_LANES], wrong[CORKHOLLOW_LANES];
    prepare(&program);
    FILE *source = open_random();
    fill(source, words, sizeof words);
    fclose(source);

    printf("with stops\n");
    cleared.position = run_with_stops(&program, words, &stopped);
    printf("without a stop\n");
    start(&program, words, &whole, UINT32_MAX);
    report(COLUMNS, &whole, 0);
    read_samples(&program, &stopped, with);
    read_samples(&program, &whole, without);
    print_samples("with stops", with);
    print_samples("without a stop", without);
    bool same = same_end(&program, &stopped, &whole);
    int differ = differing(with, without);
    printf("\n%d of %d samples agree; registers, outputs and instructions in all: %s\n", CORKHOLLOW_LANES - differ, CORKHOLLOW_LANES,
           same ? "the same" : "DIFFERENT");

    /* The mistake of a fresh register file: it has lost where each lane stands, so that no lane hits a row any more. */
    uint32_t position = cleared.position;
    resume(&program, words, &cleared, UINT32_MAX);
    read_samples(&program, &cleared, wrong);
    printf("for contrast: clearing the registers at %" PRIu32 " would change %d of %d samples; "
           "the engine's resume does not make that mistake\n",
           position, differing(wrong, without), CORKHOLLOW_LANES);
    flush_output();
    return differ > 0 || !same;
}
