/* Compiles a matrix file to a program file with the engine, so that the program can be written out as C before the benchmark is built. */
#include "corkhollow.h"

#include <stdio.h>

static uint8_t matrix[CORKHOLLOW_MOST_MATRIX_BYTES + 1], program[CORKHOLLOW_MOST_PROGRAM_BYTES];

int main(int argc, char **argv) {
    if (argc != 3) {
        fprintf(stderr, "usage: compile MATRIX PROGRAM\n");
        return 2;
    }
    FILE *in = fopen(argv[1], "rb"), *out = fopen(argv[2], "wb");
    if (!in || !out) {
        fprintf(stderr, "compile: a file cannot be opened\n");
        return 1;
    }
    size_t length = 0;
    uint32_t refused = corkhollow_compile(matrix, fread(matrix, 1, sizeof matrix, in), program, sizeof program, &length);
    if (refused) {
        fprintf(stderr, "compile: refused %u\n", (unsigned)refused);
        return 1;
    }
    if (fwrite(program, 1, length, out) != length || fclose(out)) {
        fprintf(stderr, "compile: the program cannot be written\n");
        return 1;
    }
    return 0;
}
