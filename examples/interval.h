/*
 * Real numbers by whole numbers: a number is known by a lower and an upper bound, each a whole multiple of 2^-320. Every operation rounds
 * the lower bound down and the upper one up, so that its result lies within its bounds where the numbers that it takes do.
 *
 * No number is negative. One that would need more than 320 bits before the point ends the program by an assertion.
 */
#ifndef EXAMPLES_INTERVAL_H
#define EXAMPLES_INTERVAL_H

#include <stdbool.h>
#include <stddef.h>
#include <stdint.h>

/* 32 bits each. More of them behind the point set the bounds nearer to each other. */
#ifndef FRACTION_LIMBS
#define FRACTION_LIMBS 10
#endif
#define WHOLE_LIMBS 10
#define LIMBS (FRACTION_LIMBS + WHOLE_LIMBS)

/* The lowest limb first; the point stands below limb FRACTION_LIMBS. */
struct fixed {
    uint32_t limb[LIMBS];
};

struct interval {
    struct fixed low, high;
};

/* A whole number: its bounds are equal, and so are those of every sum and product of such. */
struct interval interval_whole(uint32_t n);

struct interval interval_add(struct interval a, struct interval b);
struct interval interval_multiply(struct interval a, struct interval b);

/* The lower bound of b must be above 0. */
struct interval interval_divide(struct interval a, struct interval b);

/* Whether a is below b for certain: every number within a's bounds is below every one within b's. */
bool interval_below(struct interval a, struct interval b);

/* Whether the lower bound is 0, as it becomes when a number falls below the unit. */
bool interval_vanished(struct interval a);

/*
 * Lays the first n bits of a number below 1, highest first, each as a byte of 0 or 1: the largest whole number not above 2^n times it.
 * False where the bounds differ in one of them, so that they are not known. n is at most 32 * FRACTION_LIMBS.
 */
bool interval_bits(struct interval a, size_t n, uint8_t *bits);

#endif
