/* Counts the machine instructions of each contender. */
#include "bench.h"

/* What draws is counted on two batches as unlike as can be: where the counts differ, its work depends on the words. */
void count_all(struct measure *measures) {
    static struct batch random, missing;
    random_batch(&random);
    missing_batch(&missing);
    for (int i = 0; i < CONTENDERS; i++) {
        measures[i].steps = steps(contenders[i].run, &random);
        measures[i].steps_missing = contenders[i].draws ? steps(contenders[i].run, &missing) : measures[i].steps;
    }
}
