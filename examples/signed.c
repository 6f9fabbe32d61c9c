/*
 * Signed samples from a curve's own weights: takes a bell curve at 0, 1, 2, .. as weights of 32 bits, builds them for signed use, compiles,
 * draws 1,000,000 samples from /dev/urandom, and prints how often each came beside the curve's own share. Weight v is that of v and of -v,
 * each; 0 has only one sign, and no weight is halved or doubled for it. The last line compares the share of 0 with that which it would have
 * if the same weights were built for plain use. The progress goes to standard error, where that is a terminal.
 *
 * Weights of 32 bits cut the curve where it falls below 2^-32 of its height. An exact table, as `table` makes it with 128 columns, cuts it
 * only where its share falls below 2^-128.
 */
#include <math.h>

#include "bell.h"
#include "chart.h"
#include "common.h"

#define SIGMA 6.15543

enum { SAMPLES = 1000000, BATCHES = SAMPLES / CORKHOLLOW_LANES };

_Static_assert(SAMPLES % CORKHOLLOW_LANES == 0, "a batch is drawn whole");

static struct bell bell;
static uint32_t weights[CORKHOLLOW_ROWS];
static double curve[BELL_VALUES];   /* the curve's own share of value v, at BELL_MOST + v */
static uint32_t drawn[BELL_VALUES]; /* value v is counted at BELL_MOST + v */

/* The curve at v, as a share of its height at 0. */
static double rho(int v) { return exp(-v * v / (2 * SIGMA * SIGMA)); }

/* Lays down all weights above 0, of which that of 0 is the largest that there is; tells how many they are. */
static size_t weigh(void) {
    size_t number = 0;
    for (int v = 0; v < CORKHOLLOW_ROWS; v++) {
        weights[v] = (uint32_t)(UINT32_MAX * rho(v));
        if (weights[v] > 0) number++;
    }
    return number;
}

/* What the curve itself gives each value, of all whole numbers; beyond the 127th there is less than a double can tell. */
static void expect(void) {
    double all = 0;
    for (int v = -BELL_MOST; v <= BELL_MOST; v++) all += rho(v);
    for (int v = -BELL_MOST; v <= BELL_MOST; v++) curve[BELL_MOST + v] = rho(v) / all;
}

/* The table of the weights for either use; tells its length. */
static size_t build(size_t number, bool is_signed, uint8_t *matrix) {
    size_t length;
    must("corkhollow_build",
         corkhollow_build(weights, number, BELL_COLUMNS, is_signed, matrix, CORKHOLLOW_MOST_MATRIX_BYTES, &length));
    return length;
}

/* The share of 0 where the weights are built for plain use, and drawn with a sign all the same: that of row 0, whatever the sign is. */
static double built_plainly(size_t number) {
    static uint8_t entries[CORKHOLLOW_MOST_ENTRIES];
    uint8_t matrix[CORKHOLLOW_MOST_MATRIX_BYTES];
    size_t rows, columns, length = build(number, false, matrix);
    must("corkhollow_read", corkhollow_read(matrix, length, entries, sizeof entries, &rows, &columns));
    return bell_proportion(entries, 0);
}

int main(void) {
    uint8_t matrix[CORKHOLLOW_MOST_MATRIX_BYTES];
    size_t number = weigh(), length = build(number, true, matrix);
    expect();
    bell_compile(matrix, length, &bell);
    int missed = bell_tally(&bell, BATCHES, drawn);
    printf("%d signed samples, sigma %g, from a table built of %zu weights with %d columns\n\n", SAMPLES, SIGMA, number, BELL_COLUMNS);
    chart_print(&(struct chart){.most = BELL_MOST, .width = 1, .expected = curve, .drawn = drawn, .samples = SAMPLES});
    /* a row is cut by less than one string, or by one where it has all of them */
    printf("misses: %d drawn; at most %zu of the 2^%d strings miss\n", missed, number, BELL_COLUMNS);
    printf("share of 0: %.4f%% drawn, %.4f%% by the curve; built for plain use, the same weights would give it %.4f%%\n",
           100.0 * drawn[BELL_MOST] / SAMPLES, 100 * curve[BELL_MOST], 100 * built_plainly(number));
    flush_output();
    return 0;
}
