#include "operations.h"

#include <string.h>

static uint8_t matrix[CORKHOLLOW_MOST_MATRIX_BYTES], program[CORKHOLLOW_MOST_PROGRAM_BYTES];
static size_t matrix_length, program_length, n_columns, n_registers, n_inputs, n_outputs, n_rows;
static uint64_t sliced[CORKHOLLOW_COLUMNS], registers[CORKHOLLOW_REGISTERS], outputs[CORKHOLLOW_OUTPUTS];
static uint8_t samples[CORKHOLLOW_LANES];
static int16_t signed_samples[CORKHOLLOW_LANES];
static int32_t results[CORKHOLLOW_LANES];
static uint64_t table[CORKHOLLOW_MOST_TABLE_NUMBERS];
static size_t numbers, table_columns, sample;
static uint32_t refused;

static void start_within(const struct batch *b, uint32_t budget, uint32_t *position) {
    uint32_t count;
    bool finished;
    refused |= corkhollow_start(program, program_length, b->words, n_inputs, registers, n_registers, outputs, n_outputs, budget, position,
                                &count, &finished);
}

static void start(const struct batch *b) {
    uint32_t position;
    start_within(b, UINT32_MAX, &position);
}

static void stop_and_resume(const struct batch *b) {
    uint32_t position, count;
    bool finished;
    start_within(b, 20, &position);
    refused |= corkhollow_resume(program, program_length, b->words, n_inputs, registers, n_registers, outputs, n_outputs, position,
                                 UINT32_MAX, &position, &count, &finished);
}

static void slice(const struct batch *b) { refused |= corkhollow_slice(n_columns, b->strings, b->strings_length, sliced, n_columns); }

/* The same strings with the last bit of each spare: it is set in some batches, which are then refused. */
static void slice_spare(const struct batch *b) { corkhollow_slice(n_columns - 1, b->strings, b->strings_length, sliced, n_columns); }

static void read_samples(const struct batch *b) {
    refused |= corkhollow_samples(n_rows, b->outputs, n_outputs, samples, CORKHOLLOW_LANES);
}

static void read_signed(const struct batch *b) {
    refused |= corkhollow_signed_samples(n_rows, b->outputs, n_outputs, b->sign, signed_samples, CORKHOLLOW_LANES);
}

static void draw(const struct batch *b) {
    refused |= corkhollow_draw(program, program_length, b->strings, b->strings_length, samples, CORKHOLLOW_LANES);
}

static void draw_signed(const struct batch *b) {
    refused |= corkhollow_draw_signed(program, program_length, b->strings, b->strings_length, b->sign, signed_samples, CORKHOLLOW_LANES);
}

static void walk(const struct batch *b) {
    size_t row, used;
    refused |= corkhollow_walk(matrix, matrix_length, b->strings, CORKHOLLOW_WIDTH(n_columns), &row, &used);
}

static void spent(const struct batch *b) {
    size_t total;
    refused |= corkhollow_spent(matrix, matrix_length, b->strings, b->strings_length, &total);
}

static void combine(const struct batch *b) {
    refused |= corkhollow_combine(b->lists[0], CORKHOLLOW_LANES, b->lists[1], CORKHOLLOW_LANES, b->lists[2], CORKHOLLOW_LANES, b->lists[3],
                                  CORKHOLLOW_LANES, 3, 11, results, CORKHOLLOW_LANES);
}

static void lookup(const struct batch *b) { refused |= corkhollow_lookup(table, numbers, table_columns, b->hit, &sample); }

static void lookup_miss(const struct batch *b) { refused |= corkhollow_lookup(table, numbers, table_columns, b->miss, &sample); }

/*
 * Combining chooses once, when it has looked at all entries: whether they are refused. Looking up chooses whether the number is in range,
 * and may choose whether it misses: a search by halves would choose seven times more. Of a sample the lowest byte depends on the number,
 * and for a number that misses none.
 */
struct operation operations[OPERATIONS] = {
    {"start", start, 0, 0, outputs, 0},
    {"stop and resume", stop_and_resume, 0, 0, outputs, 0},
    {"slice", slice, 0, 0, sliced, 0},
    {"samples", read_samples, 0, 0, samples, sizeof samples},
    {"signed_samples", read_signed, 0, 0, signed_samples, sizeof signed_samples},
    {"draw", draw, 0, 0, samples, sizeof samples},
    {"draw_signed", draw_signed, 0, 0, signed_samples, sizeof signed_samples},
    {"combine", combine, 1, 1, results, sizeof results},
    {"lookup", lookup, 1, 2, &sample, 1},
    {"lookup, misses", lookup_miss, 1, 2, NULL, 0},
    {"slice, spare bits", slice_spare, 1, MANY, NULL, 0},
    {"walk", walk, 1, MANY, NULL, 0},
    {"spent", spent, 1, MANY, NULL, 0},
};

static bool table_made(size_t columns) {
    uint32_t weights[ROWS];
    uint8_t file[CORKHOLLOW_MOST_MATRIX_BYTES];
    size_t length;
    for (int i = 0; i < ROWS; i++) weights[i] = 1;
    if (columns > CORKHOLLOW_TABLE_COLUMNS) columns = CORKHOLLOW_TABLE_COLUMNS;
    if (corkhollow_build(weights, ROWS, columns, false, file, sizeof file, &length)) return false;
    return !corkhollow_export(file, length, table, CORKHOLLOW_MOST_TABLE_NUMBERS, &numbers, &table_columns);
}

bool program_made(size_t columns) {
    static const uint32_t weights[] = {5, 4, 3, 2, 1};
    uint32_t count;
    n_columns = columns;
    if (corkhollow_build(weights, 5, columns, false, matrix, sizeof matrix, &matrix_length)) return false;
    if (corkhollow_compile(matrix, matrix_length, program, sizeof program, &program_length)) return false;
    if (corkhollow_check(program, program_length, &n_registers, &n_inputs, &n_outputs, &n_rows, &count)) return false;
    for (int i = 0; i < OPERATIONS; i++) {
        if (operations[i].result == outputs) operations[i].size = n_outputs * sizeof *outputs;
        if (operations[i].result == sliced) operations[i].size = n_columns * sizeof *sliced;
    }
    return table_made(columns);
}

static void fill_lists(struct batch *b, int16_t entry(void)) {
    for (int i = 0; i < LISTS; i++) {
        for (int j = 0; j < CORKHOLLOW_LANES; j++) b->lists[i][j] = entry();
    }
}

static int16_t missing_entry(void) { return CORKHOLLOW_SIGNED_MISS; }
static int16_t zero_entry(void) { return 0; }

static uint64_t next_random(void) {
    static uint64_t x = 1;
    x = x * 6364136223846793005u + 1442695040888963407u;
    return x;
}

/* -127 to 127, or, once in about eight times, the miss. */
static int16_t random_entry(void) {
    uint64_t x = next_random();
    return x >> 61 == 0 ? CORKHOLLOW_SIGNED_MISS : (int16_t)((x >> 32) % 255) - 127;
}

/* The number of the table's that is `part` of 2^64 on the way from the first that hits to the last, and the same of those that miss. */
static void fill_numbers(struct batch *b, uint64_t part) {
    uint64_t last = table[numbers - 1], all = (uint64_t)1 << table_columns;
    b->hit = 1 + (uint64_t)((unsigned __int128)part * last >> 64);
    b->miss = last + 1 + (uint64_t)((unsigned __int128)part * (all - last) >> 64);
}

static void complete(struct batch *b) {
    b->strings_length = CORKHOLLOW_LANES * CORKHOLLOW_WIDTH(n_columns);
    slice(b);
    memcpy(b->words, sliced, sizeof sliced);
    start(b);
    memcpy(b->outputs, outputs, sizeof outputs);
}

void missing_batch(struct batch *b) {
    memset(b->strings, 0xff, sizeof b->strings);
    fill_lists(b, missing_entry);
    fill_numbers(b, UINT64_MAX);
    b->sign = UINT64_MAX;
    complete(b);
}

void zero_batch(struct batch *b) {
    memset(b->strings, 0, sizeof b->strings);
    fill_lists(b, zero_entry);
    fill_numbers(b, 0);
    b->sign = 0;
    complete(b);
}

void random_batch(struct batch *b) {
    for (size_t i = 0; i < sizeof b->strings; i++) b->strings[i] = next_random() >> 56;
    fill_lists(b, random_entry);
    fill_numbers(b, next_random());
    b->sign = next_random();
    complete(b);
}

void beyond_batch(struct batch *b) {
    random_batch(b);
    memset(b->outputs, 0xff, sizeof b->outputs);
}

size_t misses_read(const struct batch *b) {
    size_t many = 0;
    read_samples(b);
    for (int j = 0; j < CORKHOLLOW_LANES; j++) many += samples[j] == CORKHOLLOW_MISS;
    return many;
}

size_t sample_of_hit(const struct batch *b) {
    lookup(b);
    return sample;
}

size_t sample_of_miss(const struct batch *b) {
    lookup_miss(b);
    return sample;
}

bool any_refused(void) { return refused != 0; }
