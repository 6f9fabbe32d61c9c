/* A bell curve to draw signed samples from: the exact table of a discrete Gaussian (gaussian.h) or another table, compiled. */
#ifndef EXAMPLES_BELL_H
#define EXAMPLES_BELL_H

#include <stdint.h>
#include <stdio.h>

#include "corkhollow.h"

enum {
    BELL_COLUMNS = 128, /* a multiple of 8, so that a string has no spare bits to clear */
    BELL_MOST = CORKHOLLOW_ROWS - 1,
    BELL_VALUES = 2 * BELL_MOST + 1
};

struct bell {
    size_t rows;
    uint64_t misses;           /* of the 2^128 strings */
    double share[BELL_VALUES]; /* how often value v comes, at BELL_MOST + v */
    uint8_t program[CORKHOLLOW_MOST_PROGRAM_BYTES];
    size_t program_length;
};

/* Makes the table of sigma, as gaussian_table takes it, and compiles it. */
void bell_make(const char *sigma, struct bell *bell);

/* Compiles a table of 128 columns that was made in another way; rows, misses and shares are left as they are. */
void bell_compile(const uint8_t *matrix, size_t length, struct bell *bell);

/* The proportion of strings that give row v, of the table's entries, a byte of 0 or 1 each, row after row. */
double bell_proportion(const uint8_t *entries, size_t v);

/* Draws 64 signed samples from fresh strings, with a fresh sign word. */
void bell_draw(const struct bell *bell, FILE *source, int16_t *samples);

/* Draws so many batches of 64 from /dev/urandom, counts value v at BELL_MOST + v, and tells the misses. Shows the progress. */
int bell_tally(const struct bell *bell, int batches, uint32_t *drawn);

#endif
