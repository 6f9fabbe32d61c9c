/*
 * The engine against C on one table: compiles the table, sees that all contenders agree, times them, and prints a row for each.
 * usage: bench MATRIX PROGRAM, where PROGRAM is what the straight-line C was made of
 */
#include "bench.h"

#include <stdio.h>
#include <string.h>

static size_t load(const char *name, uint8_t *bytes, size_t most) {
    FILE *in = fopen(name, "rb");
    if (!in) return 0;
    size_t length = fread(bytes, 1, most, in);
    fclose(in);
    return length;
}

/* Compiles the matrix; the program must be the one expected, and the one that the straight-line C was made of. */
static bool program_compiled(const char *name) {
    static uint8_t written[CORKHOLLOW_MOST_PROGRAM_BYTES];
    size_t n_registers, n_inputs, n_outputs, n_rows;
    uint32_t count = 0;
    size_t written_length = load(name, written, sizeof written);
    if (corkhollow_compile(matrix, matrix_length, program, sizeof program, &program_length)) return false;
    if (corkhollow_check(program, program_length, &n_registers, &n_inputs, &n_outputs, &n_rows, &count)) return false;
    printf("%u instructions in %zu bytes; %zu registers, %zu inputs, %zu outputs, %zu rows\n", (unsigned)count, program_length,
           n_registers, n_inputs, n_outputs, n_rows);
    return count == INSTRUCTIONS && n_inputs == COLUMNS && n_outputs == CORKHOLLOW_OUTPUTS && n_rows == ROWS &&
           written_length == program_length && !memcmp(written, program, program_length);
}

int main(int argc, char **argv) {
    if (argc != 3) {
        fprintf(stderr, "usage: bench MATRIX PROGRAM\n");
        return 2;
    }
    matrix_length = load(argv[1], matrix, sizeof matrix);
    if (!program_compiled(argv[2])) {
        printf("the table does not compile to the program of %d instructions that the straight-line C was made of\n", INSTRUCTIONS);
        return 1;
    }
    if (!all_agree()) {
        printf("the contenders disagree\n");
        return 1;
    }
    struct measure measures[CONTENDERS];
    time_all(measures);
    count_all(measures);
    if (refused) {
        printf("the engine refused a call\n");
        return 1;
    }
    report(measures);
    return 0;
}
