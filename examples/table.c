/*
 * Writes the exact table of a discrete Gaussian, for signed samples, as a matrix file to standard output: table SIGMA COLUMNS > FILE.
 * What the rows are stands in gaussian.h. Rows, columns and the chance of a miss go to standard error.
 */
#define _POSIX_C_SOURCE 200809L
#include <inttypes.h>
#include <unistd.h>

#include "common.h"
#include "gaussian.h"

/* A number of columns, or 0 where the text is none; gaussian_table refuses that. */
static size_t read_columns(const char *text) {
    size_t columns = 0;
    for (; *text >= '0' && *text <= '9' && columns <= CORKHOLLOW_COLUMNS; text++) columns = 10 * columns + (size_t)(*text - '0');
    return *text == 0 ? columns : 0;
}

/* The chance is below 2^power, where the number of misses has columns + power bits. */
static void report(const uint8_t *entries, size_t rows, size_t columns) {
    uint64_t misses = gaussian_misses(entries, rows, columns);
    int power = -(int)columns;
    for (uint64_t rest = misses; rest > 0; rest >>= 1) power++;
    fprintf(stderr, "%zu rows, %zu columns; ", rows, columns);
    fprintf(stderr, "%" PRIu64 " of the 2^%zu strings miss, a chance below 2^%d\n", misses, columns, power);
}

int main(int argc, char **argv) {
    static uint8_t entries[CORKHOLLOW_MOST_ENTRIES], file[CORKHOLLOW_MOST_MATRIX_BYTES];
    size_t length;
    if (argc != 3 || isatty(STDOUT_FILENO)) {
        fprintf(stderr, "usage: bash examples/run table SIGMA COLUMNS > FILE, such as 6.15543 128 > table.bin\n");
        return 2;
    }
    size_t columns = read_columns(argv[2]);
    size_t rows = gaussian_table(argv[1], columns, entries);
    must("corkhollow_write", corkhollow_write(rows, columns, entries, sizeof entries, file, sizeof file, &length));
    fwrite(file, 1, length, stdout);
    flush_output();
    report(entries, rows, columns);
    return 0;
}
