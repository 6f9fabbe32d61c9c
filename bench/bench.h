/* What the parts of the benchmark share: the table's sizes, random bits in the form that each contender takes, and the contenders. */
#ifndef BENCH_H
#define BENCH_H

#include "corkhollow.h"
#include "steps.h"

enum { ROWS = 87, COLUMNS = 128, WIDTH = COLUMNS / 8, INSTRUCTIONS = 23411 };

/* The same 64 strings in every form, so that no contender is charged for making another's. */
struct batch {
    uint8_t strings[CORKHOLLOW_LANES * WIDTH];
    uint64_t words[COLUMNS];               /* the strings sliced */
    uint64_t outputs[CORKHOLLOW_OUTPUTS];  /* what the program gives for the words */
    uint64_t numbers[CORKHOLLOW_LANES][2]; /* the strings as 128-bit numbers, the high half first */
    uint64_t sign;                         /* of the signed samples */
};

struct contender {
    const char *name;
    run *run;
    bool draws;   /* is done for every batch, so that its time a sample has a meaning */
    bool program; /* is done for every instruction of the program, so that its time an instruction has */
};

/* contenders.c */
enum which {
    START, START_NONE, CHECK, SLICE, SAMPLES, SIGNED, DRAW, DRAW_SIGNED, COMPILE,
    SWITCH, STRAIGHT, CDT, SWITCH_BEST, STRAIGHT_BEST, CDT_BEST, CONTENDERS
};
extern const struct contender contenders[CONTENDERS];
extern uint8_t matrix[CORKHOLLOW_MOST_MATRIX_BYTES], program[CORKHOLLOW_MOST_PROGRAM_BYTES];
extern size_t matrix_length, program_length;
extern uint64_t outputs[CORKHOLLOW_OUTPUTS];
extern uint8_t samples[CORKHOLLOW_LANES];
extern int16_t signed_samples[CORKHOLLOW_LANES];
extern uint32_t refused; /* not 0 after any refusal */

/* batches.c */
void random_batch(struct batch *);
void missing_batch(struct batch *);

/* agree.c */
bool all_agree(void);

/* What is found of a contender: nanoseconds and machine instructions a run. */
struct measure {
    double least, median, high; /* of the passes; 90 in 100 are not above the last */
    long steps, steps_missing;  /* on random words, and where all lanes miss; -1 where they could not be counted */
};

/* timing.c, counting.c, report.c */
void time_all(struct measure *);
void count_all(struct measure *);
void report(const struct measure *);

/* switch.c and the C that straight.py makes, each compiled twice, with the best flags under another name; cdt.c, cdt_halves.c */
void switch_run(const uint8_t *file, const uint64_t *inputs, uint64_t *registers, uint64_t *outputs);
void switch_run_best(const uint8_t *file, const uint64_t *inputs, uint64_t *registers, uint64_t *outputs);
void straight_run(const uint64_t *inputs, uint64_t *outputs);
void straight_run_best(const uint64_t *inputs, uint64_t *outputs);
void cdt_run(const uint64_t numbers[][2], uint8_t *samples);
void cdt_run_best(const uint64_t numbers[][2], uint8_t *samples);

#endif
