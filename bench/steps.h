/* Counting of machine instructions. What is counted is a run on a batch, whatever that is to the program. */
#ifndef STEPS_H
#define STEPS_H

struct batch;
typedef void run(const struct batch *);

/* The machine instructions of the run, or -1 where the system does not let a process be stepped. */
long steps(run *, const struct batch *);

#endif
