/* Prints the measures as a table. */
#include "bench.h"

#include <stdio.h>

/* The run of a start: what it takes beyond a start that may carry out nothing. The high passes of the two are not the same ones: no
 * difference. */
static struct measure run_alone(struct measure all, struct measure none) {
    bool counted = all.steps >= 0 && none.steps >= 0;
    return (struct measure){.least = all.least - none.least, .median = all.median - none.median, .high = 0,
                            .steps = counted ? all.steps - none.steps : -1, .steps_missing = counted ? all.steps_missing - none.steps : -1};
}

/* A number where it has a meaning. */
static void print_cell(int width, int digits, bool meant, double x) {
    if (meant) printf(" %*.*f |", width, digits, x);
    else printf(" %*s |", width, "");
}

static void print_steps(struct measure m) {
    char cell[64] = "not counted";
    if (m.steps >= 0 && m.steps == m.steps_missing) snprintf(cell, sizeof cell, "%ld", m.steps);
    else if (m.steps >= 0) snprintf(cell, sizeof cell, "%ld or %ld", m.steps, m.steps_missing);
    printf(" %20s |", cell);
}

static void print_row(struct contender c, struct measure m, double start) {
    printf("| %-37s |", c.name);
    print_cell(9, 0, true, m.least);
    print_cell(9, 0, true, m.median);
    print_cell(9, 0, m.high > 0, m.high);
    print_cell(11, 1, c.draws, m.least / CORKHOLLOW_LANES);
    print_cell(12, 3, c.program, m.least / INSTRUCTIONS);
    print_steps(m);
    print_cell(11, 3, true, m.least / start);
    printf("\n");
}

static void print_heading(void) {
    printf("\n| %-37s | %9s | %9s | %9s | %11s | %12s | %20s | %11s |\n", "a batch of 64 samples", "ns, least", "median", "90 in 100",
           "ns a sample", "ns an instr.", "machine instructions", "times start");
    printf("|---------------------------------------|----------:|----------:|----------:|------------:|-------------:|"
           "---------------------:|------------:|\n");
}

void report(const struct measure *measures) {
    static const struct contender alone = {"engine: run (start less budget 0)", NULL, true, true};
    double start = measures[START].least;
    print_heading();
    for (int i = 0; i < CONTENDERS; i++) {
        print_row(contenders[i], measures[i], start);
        if (i == START_NONE) print_row(alone, run_alone(measures[START], measures[START_NONE]), start);
    }
    printf("\ntimes start: the row's least time over the least of the engine's start; above 1 the engine's start is the faster.\n");
    printf("machine instructions: one run, stepped; two numbers where random words and words that miss in all lanes differ.\n");
    printf("best flags: -O3 -march=native, for (b) also -fno-tree-reassoc.\n");
    printf("(c) goes from strings to samples, as the engine's draw does. Over the least of draw it is %.3f, the extra one %.3f.\n",
           measures[CDT].least / measures[DRAW].least, measures[CDT_BEST].least / measures[DRAW].least);
}
