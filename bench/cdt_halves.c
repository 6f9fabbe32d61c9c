/*
 * (c) The scan of cdt.c with the borrow spelt out: that of the high halves, or where they are equal that of the low ones. gcc -O3 takes
 * this form, and not the other, for several sums at once in a vector register; for one sum at a time it is the slower.
 */
#include "bench.h"
#include "cumulative.h"

void cdt_run_best(const uint64_t numbers[][2], uint8_t *samples) {
    for (int j = 0; j < CORKHOLLOW_LANES; j++) {
        uint64_t high = numbers[j][0], low = numbers[j][1], borrows = 0;
        for (int v = 0; v < ROWS; v++) borrows += (high < sum_high[v]) | ((high == sum_high[v]) & (low < sum_low[v]));
        samples[j] = ROWS - borrows;
    }
}
