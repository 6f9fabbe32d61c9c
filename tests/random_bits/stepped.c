/*
 * Steps each operation on batches that miss in all lanes and that hit in all, whose lists of signed samples have misses alone, none or
 * some, and whose numbers to look up give the last sample, the first or any; and on one whose outputs spell numbers not below the rows. One
 * that does not choose by the random bits, or chooses only whether it refuses or misses, takes as many machine instructions for each of
 * them, and one that does is seen to.
 */
#include "operations.h"

#include <stdio.h>

enum { BATCHES = 4, COLUMNS = 24 };

/* The machine instructions for each batch; false where no process can be stepped. */
static bool counted(run *f, const struct batch *batches, long *counts) {
    for (int i = 0; i < BATCHES; i++) {
        counts[i] = steps(f, &batches[i]);
        if (counts[i] < 0) return false;
    }
    return true;
}

/* How many entries of the lists are misses. */
static int misses(const struct batch *b) {
    int many = 0;
    for (int i = 0; i < LISTS; i++) {
        for (int j = 0; j < CORKHOLLOW_LANES; j++) many += b->lists[i][j] == CORKHOLLOW_SIGNED_MISS;
    }
    return many;
}

/* Of the numbers that hit, the last sample, the first, and any between; of the others all miss, and no two batches' are the same. */
static bool are_numbers_as_meant(const struct batch *batches) {
    for (int i = 0; i < BATCHES; i++) {
        if (sample_of_miss(&batches[i]) != CORKHOLLOW_MISS) return false;
    }
    size_t any = sample_of_hit(&batches[2]);
    return sample_of_hit(&batches[0]) == ROWS - 1 && sample_of_hit(&batches[1]) == 0 && any > 0 && any < ROWS - 1 &&
           batches[0].miss > batches[2].miss && batches[2].miss > batches[1].miss;
}

/* Read off the outputs, all lanes of the first batch miss, and of the last, where the hits are all set; and none of the others. */
static bool are_outputs_as_meant(const struct batch *batches) {
    return misses_read(&batches[0]) == CORKHOLLOW_LANES && misses_read(&batches[1]) == 0 && misses_read(&batches[2]) == 0 &&
           misses_read(&batches[3]) == CORKHOLLOW_LANES && !~batches[3].outputs[0];
}

/* The strings of the first batch miss, and those of the next two hit; of the entries of the lists all miss, then none, then some. */
static bool are_as_meant(const struct batch *batches) {
    int all = LISTS * CORKHOLLOW_LANES, some = misses(&batches[2]);
    return !batches[0].outputs[0] && !~batches[1].outputs[0] && !~batches[2].outputs[0] && misses(&batches[0]) == all &&
           misses(&batches[1]) == 0 && some > 0 && some < all;
}

static bool as_it_must(const struct operation *o, const long *counts) {
    bool same = true;
    printf("%-18s", o->name);
    for (int i = 0; i < BATCHES; i++) {
        printf(" %9ld", counts[i]);
        same = same && counts[i] == counts[0];
    }
    printf("\n");
    if (same == (o->most != MANY)) return true;
    printf("%s: %s\n", o->name, same ? "it is meant to choose by the bits, and is not seen to" : "not the same for all bits");
    return false;
}

int main(void) {
    static struct batch batches[BATCHES];
    long counts[BATCHES];
    if (!program_made(COLUMNS)) return printf("the table has no program\n"), 1;
    missing_batch(&batches[0]);
    zero_batch(&batches[1]);
    random_batch(&batches[2]);
    beyond_batch(&batches[3]);
    if (!are_as_meant(batches) || !are_outputs_as_meant(batches) || !are_numbers_as_meant(batches)) {
        return printf("the batches are not as meant\n"), 1;
    }
    printf("%-18s %9s %9s %9s %9s\n", "machine instr.", "all miss", "all hit", "any", "beyond");
    for (int i = 0; i < OPERATIONS; i++) {
        if (!counted(operations[i].run, batches, counts)) return printf("random_bits: SKIPPED: no process can be stepped here\n"), 0;
        if (!as_it_must(&operations[i], counts)) return 1;
    }
    if (any_refused()) return printf("an operation was refused\n"), 1;
    return 0;
}
