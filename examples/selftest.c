/*
 * A self-test, such as a module runs before it goes into service. For each row of a table it asks for the smallest string that gives the
 * row, sees that the walk hits the row on it, and draws it in each of the 64 lanes of the compiled program in turn, with strings from
 * /dev/urandom in the other lanes: whatever these carry, the lane must give the row. A row that is not all zero must have a string, and one
 * that is must have none. What differs is told, with status 1.
 *
 * The table is that of paper 002, of sigma 6.15543 and 128 columns. It has 87 rows, of which the last are all zero: these have no string.
 */
#include <string.h>

#include "common.h"
#include "gaussian.h"

#define SIGMA "6.15543"

enum { ROWS = 87, COLUMNS = 128, WIDTH = 16 };

_Static_assert(WIDTH == CORKHOLLOW_WIDTH(COLUMNS) && 8 * WIDTH == COLUMNS, "the bytes of a string, without a spare bit to clear");

static uint8_t entries[CORKHOLLOW_MOST_ENTRIES];
static uint8_t matrix[CORKHOLLOW_MATRIX_LENGTH(ROWS, COLUMNS)], program[CORKHOLLOW_MOST_PROGRAM_BYTES];
static size_t matrix_length, program_length;

/* What was seen of all rows: those with a string and the columns that their walks use, and those without. */
static struct {
    size_t with, fewest, most, without, zero[ROWS];
} seen = {.fewest = COLUMNS};

/* The exact table, rows of zero included, and its program. */
static void prepare(void) {
    if (gaussian_table(SIGMA, COLUMNS, entries) > ROWS) {
        fprintf(stderr, "sigma %s takes more than %d rows\n", SIGMA, ROWS);
        exit(1);
    }
    must("corkhollow_write", corkhollow_write(ROWS, COLUMNS, entries, sizeof entries, matrix, sizeof matrix, &matrix_length));
    must("corkhollow_compile", corkhollow_compile(matrix, matrix_length, program, sizeof program, &program_length));
}

/* The walk goes by the table itself, and must hit the row. */
static void walk(size_t row, const uint8_t *string) {
    size_t hit, used;
    must("corkhollow_walk", corkhollow_walk(matrix, matrix_length, string, WIDTH, &hit, &used));
    if (hit != row) {
        fprintf(stderr, "row %zu: the walk gives %zu\n", row, hit);
        exit(1);
    }
    if (used < seen.fewest) seen.fewest = used;
    if (used > seen.most) seen.most = used;
}

/* Each lane that carries the string must give the row, whatever the others carry. */
static void draw(size_t row, const uint8_t *string, FILE *source) {
    uint8_t strings[CORKHOLLOW_LANES * WIDTH], samples[CORKHOLLOW_LANES];
    for (int lane = 0; lane < CORKHOLLOW_LANES; lane++) {
        fill(source, strings, sizeof strings);
        memcpy(strings + lane * WIDTH, string, WIDTH);
        must("corkhollow_draw", corkhollow_draw(program, program_length, strings, sizeof strings, samples, CORKHOLLOW_LANES));
        if (samples[lane] != row) {
            fprintf(stderr, "row %zu, lane %d: the sample is %d\n", row, lane, samples[lane]);
            exit(1);
        }
    }
}

static void test(size_t row, FILE *source) {
    uint8_t string[WIDTH];
    bool found;
    must("corkhollow_string_for", corkhollow_string_for(matrix, matrix_length, row, string, sizeof string, &found));
    if (found == !memchr(entries + row * COLUMNS, 1, COLUMNS)) {
        fprintf(stderr, "row %zu: %s string\n", row, found ? "all zero, and yet a" : "set, and yet no");
        exit(1);
    }
    if (!found) {
        seen.zero[seen.without++] = row;
        return;
    }
    seen.with++;
    walk(row, string);
    draw(row, string, source);
}

int main(void) {
    prepare();
    FILE *source = open_random();
    for (size_t row = 0; row < ROWS; row++) test(row, source);
    fclose(source);
    printf("self-test of a table of %d rows and %d columns, sigma %s\n\n", ROWS, COLUMNS, SIGMA);
    printf("%zu rows: each string gives its row in each of %d lanes\n", seen.with, CORKHOLLOW_LANES);
    printf("%zu rows: the walk hits each on its string, and uses %zu to %zu columns\n", seen.with, seen.fewest, seen.most);
    printf("%zu rows without a string:", seen.without);
    for (size_t i = 0; i < seen.without; i++) printf(" %zu", seen.zero[i]);
    printf("\n");
    flush_output();
    return 0;
}
