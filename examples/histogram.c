/*
 * Signed samples on a bell curve: makes the exact table of a discrete Gaussian, compiles it, draws 1,000,000 samples from /dev/urandom, and
 * prints how often each came beside how often the table says. The progress goes to standard error, where that is a terminal.
 */
#include <inttypes.h>
#include <math.h>

#include "bell.h"
#include "chart.h"
#include "common.h"

#define SIGMA "6.15543"

enum { SAMPLES = 1000000, BATCHES = SAMPLES / CORKHOLLOW_LANES };

_Static_assert(SAMPLES % CORKHOLLOW_LANES == 0, "a batch is drawn whole");

static struct bell bell;
static uint32_t drawn[BELL_VALUES]; /* value v is counted at BELL_MOST + v */

int main(void) {
    bell_make(SIGMA, &bell);
    int missed = bell_tally(&bell, BATCHES, drawn);
    printf("%d signed samples, sigma %s, from an exact table of %zu rows and %d columns\n\n", SAMPLES, SIGMA, bell.rows, BELL_COLUMNS);
    chart_print(&(struct chart){.most = BELL_MOST, .width = 1, .expected = bell.share, .drawn = drawn, .samples = SAMPLES});
    printf("misses: %d drawn; %" PRIu64 " of the 2^%d strings miss, a proportion of %.1e\n", missed, bell.misses, BELL_COLUMNS,
           ldexp((double)bell.misses, -BELL_COLUMNS));
    flush_output();
    return 0;
}
