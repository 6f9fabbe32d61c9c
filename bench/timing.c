/* Times the contenders: the least, the middle and a high one of many passes. */
#define _GNU_SOURCE
#include "bench.h"

#include <sched.h>
#include <stdio.h>
#include <stdlib.h>
#include <sys/resource.h>
#include <time.h>

enum { PASSES = 300, PASS_NANOSECONDS = 1000000, BATCHES = 16 };

static struct batch batches[BATCHES];
static double times[CONTENDERS][PASSES];

static double now(void) {
    struct timespec t;
    clock_gettime(CLOCK_MONOTONIC, &t);
    return t.tv_sec * 1e9 + t.tv_nsec;
}

/* To one processor for good, where the system allows it. */
static void pin(void) {
    cpu_set_t one;
    CPU_ZERO(&one);
    CPU_SET(sched_getcpu(), &one);
    if (sched_setaffinity(0, sizeof one, &one)) printf("not pinned to one processor\n");
}

static double time_runs(run *f, size_t runs) {
    double begin = now();
    for (size_t i = 0; i < runs; i++) f(&batches[i % BATCHES]);
    return (now() - begin) / runs;
}

/* As many runs as fill a pass, so that the quick contenders are not lost in the clock. */
static size_t runs_a_pass(run *f) {
    double once = time_runs(f, BATCHES);
    return once < PASS_NANOSECONDS ? PASS_NANOSECONDS / once : 1;
}

/* Contender after contender in every pass: a change of the processor's frequency then meets all alike. */
static void time_passes(void) {
    size_t runs[CONTENDERS];
    for (int i = 0; i < CONTENDERS; i++) runs[i] = runs_a_pass(contenders[i].run);
    for (int i = 0; i < PASSES * CONTENDERS; i++) {
        int one = i % CONTENDERS;
        times[one][i / CONTENDERS] = time_runs(contenders[one].run, runs[one]);
    }
}

static int order(const void *a, const void *b) {
    double x = *(const double *)a, y = *(const double *)b;
    return (x > y) - (x < y);
}

/* How often another process took the processor away; on a quiet machine seldom. */
static long interruptions(void) {
    struct rusage use;
    return getrusage(RUSAGE_SELF, &use) ? -1 : use.ru_nivcsw;
}

void time_all(struct measure *measures) {
    pin();
    for (int i = 0; i < BATCHES; i++) random_batch(&batches[i]);
    long before = interruptions();
    time_passes();
    printf("%d passes of about %d ms for each row; the processor was taken away %ld times\n", PASSES, PASS_NANOSECONDS / 1000000,
           interruptions() - before);
    for (int i = 0; i < CONTENDERS; i++) {
        qsort(times[i], PASSES, sizeof *times[i], order);
        measures[i].least = times[i][0];
        measures[i].median = times[i][PASSES / 2];
        measures[i].high = times[i][PASSES * 9 / 10];
    }
}
