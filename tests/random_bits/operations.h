/* The operations that are looked at, each as a run on one batch, and the batches. */
#ifndef OPERATIONS_H
#define OPERATIONS_H

#include "corkhollow.h"
#include "steps.h"

enum { LISTS = 4, OPERATIONS = 13 };

/*
 * 64 strings, their words, what the program gives for these, and the sign of the samples; four lists of signed samples; and two numbers to
 * look up in a cumulative table, one that hits and one that misses.
 */
struct batch {
    uint8_t strings[CORKHOLLOW_MOST_STRING_BYTES];
    size_t strings_length;
    uint64_t words[CORKHOLLOW_COLUMNS], outputs[CORKHOLLOW_OUTPUTS], sign;
    int16_t lists[LISTS][CORKHOLLOW_LANES];
    uint64_t hit, miss;
};

/* The choices of one that is meant to choose by the random bits: otherwise no test here could be seen to fail. */
#define MANY UINT32_MAX

struct operation {
    const char *name;
    run *run;
    uint32_t least, most; /* how often it chooses by the random bits; below MANY all of these are whether it refuses, or misses */
    const void *result;   /* what it leaves, of which every byte depends on the bits */
    size_t size;
};

extern struct operation operations[OPERATIONS];

/*
 * Makes the program of a table of which few strings miss, whose outputs can spell numbers that are not below its rows, and a cumulative
 * table of ROWS rows, all alike, of as many columns or of the most that it can have, of which few numbers miss. Batches and operations are
 * of these columns from then on.
 */
enum { ROWS = 127 };
bool program_made(size_t columns);

/*
 * Batches whose strings are all ones, which miss; all zeros, which hit; and any. The entries of their lists are all misses; all 0; and
 * values of both signs among some misses. Their numbers are the last that hits and the last that misses; the first; and any.
 */
void missing_batch(struct batch *);
void zero_batch(struct batch *);
void random_batch(struct batch *);

/* Any batch, but for its outputs: every lane hits, and spells a number that is not below the program's rows, which is a miss. */
void beyond_batch(struct batch *);

/* How many samples that are read off the outputs of a batch are misses. */
size_t misses_read(const struct batch *);

/* The samples that a batch's numbers are looked up as. */
size_t sample_of_hit(const struct batch *);
size_t sample_of_miss(const struct batch *);

/* Whether any operation was refused. */
bool any_refused(void);

#endif
