/* What the examples in C share: no call goes unchecked, and random bytes come whole or not at all. */
#ifndef EXAMPLES_COMMON_H
#define EXAMPLES_COMMON_H

#include <stdint.h>
#include <stdio.h>
#include <stdlib.h>

#include "corkhollow.h"

/* Ends the program where a call was refused. The number is the one that the call returned. */
static inline void must(const char *call, uint32_t refusal) {
    static const char *const names[] = {"OK",      "SHORT",     "KIND",  "SIZE",       "LENGTH",   "BIT",    "SUM",        "INSTRUCTION",
                                        "OPERAND", "UNWRITTEN", "UNSET", "WEIGHTLESS", "POSITION", "BUFFER", "MULTIPLIER", "TABLE",
                                        "STEP",    "SIGNER",    "CAP",   "RESERVE"};
    if (refusal == CORKHOLLOW_OK) return;
    const char *name = refusal < sizeof names / sizeof *names ? names[refusal] : "unknown";
    fprintf(stderr, "%s: refusal %u, %s\n", call, refusal, name);
    exit(1);
}

static inline FILE *open_random(void) {
    FILE *source = fopen("/dev/urandom", "rb");
    if (!source) {
        perror("/dev/urandom");
        exit(1);
    }
    return source;
}

static inline void fill(FILE *source, void *to, size_t bytes) {
    if (fread(to, 1, bytes, source) != bytes) {
        fprintf(stderr, "/dev/urandom: no more bytes\n");
        exit(1);
    }
}

/* Ends the program where the output could not be written, as on a full disk. */
static inline void flush_output(void) {
    if (fflush(stdout) == 0 && !ferror(stdout)) return;
    perror("standard output");
    exit(1);
}

#endif
