/*
 * Exact tables of the discrete Gaussian, for signed samples, computed by whole numbers alone.
 *
 * The curve gives the whole number v the chance rho(v) / S, where rho(v) = exp(-v^2 / (2 sigma^2)) and S is the sum of rho over all whole
 * numbers, without end on both sides. The engine draws a distance from the table and negates it by a bit of the sign word; zero stays
 * zero. So row 0 has the chance of 0 alone, rho(0) / S, and row v, for v above 0, that of v and -v together, 2 rho(v) / S.
 *
 * Exact means: of n columns, row v is the largest whole number not above 2^n times its chance. So every sample's chance is less than 2^-n
 * below the curve's and never above it, which is as near as n columns come from below. What is cut off is the miss.
 */
#ifndef EXAMPLES_GAUSSIAN_H
#define EXAMPLES_GAUSSIAN_H

#include <stddef.h>
#include <stdint.h>

/*
 * Lays the entries that corkhollow_write takes, a byte of 0 or 1 each, row after row, at the front of `entries`, which has room for
 * CORKHOLLOW_MOST_ENTRIES, and tells how many rows there are: all up to the last that is above 0.
 *
 * Sigma is a decimal number such as "6.15543" or a fraction of whole numbers such as "13/2", from 1/16 to below 128, of at most 40
 * characters; the columns are 1 to 192.
 *
 * Otherwise the program ends with a message. So it does where the curve needs more than 128 rows: no tail is cut off. With 128 columns
 * that is from a sigma of about 9.75 on, with 192 from about 7.91; the message tells how many columns such a sigma can have. And so it
 * does where the bounds by which all is computed do not tell a row for certain: more precision is needed then, and nothing is guessed. They
 * have 320 bits behind the point, 128 more than a row of 192 columns.
 */
size_t gaussian_table(const char *sigma, size_t columns, uint8_t *entries);

/* How many of the 2^columns strings miss: each row is cut by less than one, and so is each of the rows that would follow. */
uint64_t gaussian_misses(const uint8_t *entries, size_t rows, size_t columns);

#endif
