/*
 * A cumulative table, as CDT samplers hold their curve: cuts Table 5 of paper 004 to 63 bits, imports it, sees that it exports as the same
 * numbers, and draws 1,000,000 samples from /dev/urandom by the compiled program and as many by looking random numbers up. Prints how often
 * each came, by either way, beside what the table says. The progress goes to standard error, where that is a terminal.
 */
#include <math.h>
#include <string.h>

#include "chart.h"
#include "common.h"

enum {
    BITS = 80, /* of the paper's numbers */
    COLUMNS = CORKHOLLOW_TABLE_COLUMNS,
    ROWS = 11,
    NUMBERS = ROWS + 1,
    WIDTH = 8,
    SAMPLES = 1000000,
    BATCHES = SAMPLES / CORKHOLLOW_LANES,
    FEW = 100 /* samples of which less is expected are counted together: so small a count says little */
};

_Static_assert(SAMPLES % CORKHOLLOW_LANES == 0, "a batch is drawn whole");
_Static_assert(WIDTH == CORKHOLLOW_WIDTH(COLUMNS), "the bytes of a string");

/* Of 2^80, the paper's share of the samples above v, for v from 0 up. */
static const char *const above[ROWS - 1] = {
    "519416855270223991024635", "101208528248637278136991", "7893637264903720998210", "233884566914685871813", "2580077773372372849",
    "10517004221616016",        "15796660852944",           "8733832501",             "1776829",               "132"};

/* How often each sample came, by one of the two ways, and how often none did. */
struct way {
    const char *name;
    int drawn[ROWS], missed;
};

static uint64_t table[NUMBERS];
static uint8_t program[CORKHOLLOW_MOST_PROGRAM_BYTES];
static size_t program_length;
static struct way by_program = {.name = "the program"}, by_lookup = {.name = "lookup"};

/* Number v of the table is the share of the samples below v, of which the first 63 bits are kept: 0, then up to 2^63. */
static void cut(void) {
    for (int v = 1; v < ROWS; v++) {
        unsigned __int128 share = 0;
        for (const char *digit = above[v - 1]; *digit; digit++) share = 10 * share + (unsigned)(*digit - '0');
        table[v] = (uint64_t)((((unsigned __int128)1 << BITS) - share) >> (BITS - COLUMNS));
    }
    table[ROWS] = (uint64_t)1 << COLUMNS;
}

/* What the table says of the samples from the first to the last, as a share of all. */
static double share(int first, int last) { return ldexp((double)(table[last + 1] - table[first]), -COLUMNS); }

/* The matrix of the table, seen to export as the table again, and compiled. */
static void import(void) {
    uint8_t matrix[CORKHOLLOW_MATRIX_LENGTH(ROWS, COLUMNS)];
    uint64_t exported[NUMBERS];
    size_t length, numbers, columns;
    must("corkhollow_import", corkhollow_import(table, NUMBERS, COLUMNS, matrix, sizeof matrix, &length));
    must("corkhollow_export", corkhollow_export(matrix, length, exported, NUMBERS, &numbers, &columns));
    if (numbers != NUMBERS || columns != COLUMNS || memcmp(exported, table, sizeof table) != 0) {
        fprintf(stderr, "the table that was imported is not the one exported\n");
        exit(1);
    }
    must("corkhollow_compile", corkhollow_compile(matrix, length, program, sizeof program, &program_length));
}

static void count(struct way *way, size_t sample) {
    if (sample == CORKHOLLOW_MISS) way->missed++;
    else way->drawn[sample]++;
}

/* 64 samples of 64 strings of 63 random bits; the last bit of each string is spare, and cleared. */
static void draw(FILE *source) {
    uint8_t strings[CORKHOLLOW_LANES * WIDTH], samples[CORKHOLLOW_LANES];
    fill(source, strings, sizeof strings);
    for (int j = 0; j < CORKHOLLOW_LANES; j++) strings[j * WIDTH + WIDTH - 1] &= 0xfe;
    must("corkhollow_draw", corkhollow_draw(program, program_length, strings, sizeof strings, samples, CORKHOLLOW_LANES));
    for (int j = 0; j < CORKHOLLOW_LANES; j++) count(&by_program, samples[j]);
}

/* As many of numbers from 1 to 2^63: that of 63 random bits, and 1 more. */
static void look_up(FILE *source) {
    uint64_t bits[CORKHOLLOW_LANES];
    fill(source, bits, sizeof bits);
    for (int j = 0; j < CORKHOLLOW_LANES; j++) {
        uint64_t r = (bits[j] >> (64 - COLUMNS)) + 1;
        size_t sample;
        must("corkhollow_lookup", corkhollow_lookup(table, NUMBERS, COLUMNS, r, &sample));
        count(&by_lookup, sample);
    }
}

/* The first sample that is counted with all above it. */
static int first_together(void) {
    int v = 0;
    while (v + 1 < ROWS && share(v + 1, ROWS - 1) * SAMPLES >= FEW) v++;
    return v;
}

static double came(const struct way *way, int first, int last) {
    int many = 0;
    for (int v = first; v <= last; v++) many += way->drawn[v];
    return (double)many / SAMPLES;
}

static void print_largest(const struct way *way, int together) {
    double largest = 0;
    int where = 0;
    for (int v = 0; v <= together; v++) {
        int last = v < together ? v : ROWS - 1;
        double due = share(v, last), deviations = (came(way, v, last) - due) / sqrt(due * (1 - due) / SAMPLES);
        if (fabs(deviations) <= fabs(largest)) continue;
        largest = deviations;
        where = v;
    }
    printf("by %s: largest difference: %+.1f standard deviations, at %d; %d misses\n", way->name, largest, where, way->missed);
}

static void print(void) {
    int together = first_together();
    printf("%d samples by either way, from a cumulative table of %d numbers and %d bits\n\n", SAMPLES, NUMBERS, COLUMNS);
    printf("%11s %15s %10s %10s\n", "sample", "by the program", "by lookup", "expected");
    for (int v = 0; v <= together; v++) {
        int last = v < together ? v : ROWS - 1;
        printf("%2d%9s %14.4f%% %9.4f%% %9.4f%%\n", v, v < together ? "" : " and more", 100 * came(&by_program, v, last),
               100 * came(&by_lookup, v, last), 100 * share(v, last));
    }
    printf("\n");
    print_largest(&by_program, together);
    print_largest(&by_lookup, together);
}

int main(void) {
    cut();
    import();
    FILE *source = open_random();
    for (int batch = 1; batch <= BATCHES; batch++) {
        draw(source);
        look_up(source);
        chart_progress(batch, BATCHES);
    }
    fclose(source);
    print();
    flush_output();
    return 0;
}
