/* A bar chart of numbers that were drawn, beside what was expected, and the progress of their drawing. */
#ifndef EXAMPLES_CHART_H
#define EXAMPLES_CHART_H

#include <stdint.h>

struct chart {
    int most;               /* the numbers are -most to most; number v is counted at most + v */
    int width;              /* so many numbers share a line: an odd number, so that 0 is in the middle of its line */
    const double *expected; /* the share of each number, of all that are drawn */
    const uint32_t *drawn;  /* how often each came */
    int samples;            /* how many were drawn, misses included */
};

/* Prints the chart, and the largest difference of a line in standard deviations. */
void chart_print(const struct chart *chart);

/* Rewrites the progress line where the percentage of batches is a new one; not into a file or a pipe. */
void chart_progress(int batch, int batches);

#endif
