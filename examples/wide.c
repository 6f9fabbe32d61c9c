/*
 * A wide bell from four narrow ones, as paper 002 makes deviation 215 of 6.15543: draws four batches of signed samples at a time from
 * /dev/urandom, combines them with the multipliers 3 and 11, and prints how often 1,000,000 results came beside how often the table says
 * of four such samples. The progress goes to standard error, where that is a terminal.
 */
#include <inttypes.h>
#include <math.h>
#include <string.h>

#include "bell.h"
#include "chart.h"
#include "common.h"

#define SIGMA "6.15543"

enum {
    PARTS = 4,
    FIRST = 3,
    SECOND = 11,
    MOST = BELL_MOST * (1 + FIRST) * (1 + SECOND),
    RESULTS = 2 * MOST + 1, /* result r is counted at MOST + r */
    SAMPLES = 1000000,
    BATCHES = SAMPLES / CORKHOLLOW_LANES,
    WIDTH = 43 /* a line is a fifth of the deviation */
};

_Static_assert(SAMPLES % CORKHOLLOW_LANES == 0, "a batch is drawn whole");

static struct bell bell;
static double expected[RESULTS];
static uint32_t drawn[RESULTS];

/* Takes one more part into what is expected: each sum so far comes with each value of the part, times its factor. */
static void spread(int factor) {
    static double sums[RESULTS];
    memcpy(sums, expected, sizeof sums);
    memset(expected, 0, sizeof expected);
    for (int sum = 0; sum < RESULTS; sum++) {
        if (sums[sum] == 0) continue;
        for (int v = -BELL_MOST; v <= BELL_MOST; v++) expected[sum + factor * v] += sums[sum] * bell.share[BELL_MOST + v];
    }
}

/* (x1 + 3 * x2) + 11 * (x3 + 3 * x4) is x1 + 3 * x2 + 11 * x3 + 33 * x4. */
static void expect(void) {
    expected[MOST] = 1;
    spread(1);
    spread(FIRST);
    spread(SECOND);
    spread(FIRST * SECOND);
}

/* Counts 64 results; tells the misses among them. */
static int count(const int32_t *results) {
    int missed = 0;
    for (int j = 0; j < CORKHOLLOW_LANES; j++) {
        if (results[j] == CORKHOLLOW_COMBINED_MISS) missed++;
        else drawn[MOST + results[j]]++;
    }
    return missed;
}

/* Every part of a batch is a draw of its own: a list that serves twice would not be independent. Tells the misses. */
static int draw(void) {
    int16_t x[PARTS][CORKHOLLOW_LANES];
    int32_t results[CORKHOLLOW_LANES];
    int missed = 0;
    FILE *source = open_random();
    for (int batch = 1; batch <= BATCHES; batch++) {
        for (int part = 0; part < PARTS; part++) bell_draw(&bell, source, x[part]);
        must("corkhollow_combine",
             corkhollow_combine(x[0], CORKHOLLOW_LANES, x[1], CORKHOLLOW_LANES, x[2], CORKHOLLOW_LANES, x[3], CORKHOLLOW_LANES, FIRST,
                                SECOND, results, CORKHOLLOW_LANES));
        missed += count(results);
        chart_progress(batch, BATCHES);
    }
    fclose(source);
    return missed;
}

/*
 * Every result is as likely as its opposite, so that the mean is 0. By chance alone the mean of the squares of n results is off by the
 * share sqrt(2 / n) of itself, as with any Gaussian, and its root by half that share.
 */
static void print_deviation(int hits) {
    double came = 0, due = 0;
    for (int r = -MOST; r <= MOST; r++) {
        came += (double)r * r * drawn[MOST + r] / hits;
        due += (double)r * r * expected[MOST + r];
    }
    printf("deviation: %.2f drawn, %.2f expected, give or take %.2f\n", sqrt(came), sqrt(due), sqrt(due / 2 / hits));
}

int main(void) {
    bell_make(SIGMA, &bell);
    expect();
    int missed = draw();
    printf("%d results (x1 + %d * x2) + %d * (x3 + %d * x4) of samples of sigma %s,\n", SAMPLES, FIRST, SECOND, FIRST, SIGMA);
    printf("from an exact table of %zu rows and %d columns\n\n", bell.rows, BELL_COLUMNS);
    chart_print(&(struct chart){.most = MOST, .width = WIDTH, .expected = expected, .drawn = drawn, .samples = SAMPLES});
    print_deviation(SAMPLES - missed);
    /* two parts miss together so seldom that any of the four is four times as likely to miss as one */
    printf("misses: %d drawn; %" PRIu64 " of the 2^%d strings of a part miss, and any of four in a proportion of %.1e\n", missed,
           bell.misses, BELL_COLUMNS, ldexp((double)(PARTS * bell.misses), -BELL_COLUMNS));
    flush_output();
    return 0;
}
