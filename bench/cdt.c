/*
 * (c) The constant-time scan of the cumulative table, one sample after another. The sample is the number of sums not above u; ROWS is a
 * miss. Every sum is compared, by the borrow of u - sum: gcc makes of it a compare of the low halves and a subtraction with borrow of the
 * high ones, no branch.
 */
#include "bench.h"
#include "cumulative.h"

void cdt_run(const uint64_t numbers[][2], uint8_t *samples) {
    for (int j = 0; j < CORKHOLLOW_LANES; j++) {
        unsigned __int128 u = (unsigned __int128)numbers[j][0] << 64 | numbers[j][1];
        unsigned borrows = 0;
        for (int v = 0; v < ROWS; v++) borrows += u < ((unsigned __int128)sum_high[v] << 64 | sum_low[v]);
        samples[j] = ROWS - borrows;
    }
}
