#include "gaussian.h"

#include <stdarg.h>
#include <stdio.h>
#include <stdlib.h>
#include <string.h>

#include "corkhollow.h"
#include "interval.h"

enum { CHARACTERS = 40, ROWS = CORKHOLLOW_ROWS };

_Static_assert(32 * FRACTION_LIMBS >= CORKHOLLOW_COLUMNS, "a row has no more columns than the bounds have bits behind the point");

static _Noreturn void stop(const char *format, ...) {
    va_list list;
    va_start(list, format);
    vfprintf(stderr, format, list);
    va_end(list);
    fputc('\n', stderr);
    exit(1);
}

/* Puts the digits that come next behind those of a number, and tells how many they are. */
static size_t read_digits(const char **text, struct interval *number) {
    size_t digits = 0;
    for (; **text >= '0' && **text <= '9'; digits++, (*text)++) {
        *number = interval_multiply(*number, interval_whole(10));
        *number = interval_add(*number, interval_whole((uint32_t)(**text - '0')));
    }
    return digits;
}

/* Reads sigma as a fraction of whole numbers. */
static bool read_fraction(const char *text, struct interval *over, struct interval *under) {
    *over = interval_whole(0);
    *under = interval_whole(1);
    if (strlen(text) > CHARACTERS || read_digits(&text, over) == 0) return false;
    if (*text == '.') {
        text++;
        size_t places = read_digits(&text, over);
        if (places == 0) return false;
        for (; places > 0; places--) *under = interval_multiply(*under, interval_whole(10));
    } else if (*text == '/') {
        text++;
        *under = interval_whole(0);
        if (read_digits(&text, under) == 0) return false;
    }
    return *text == 0;
}

static struct interval square(struct interval a) { return interval_multiply(a, a); }
static struct interval twice(struct interval a) { return interval_add(a, a); }

/* Tells 1 / (2 sigma^2), which is 128 at most. */
static struct interval read_sigma(const char *sigma) {
    struct interval over, under;
    if (!read_fraction(sigma, &over, &under)) {
        stop("sigma %s: not a number such as 6.15543 or 13/2 of at most %d characters", sigma, CHARACTERS);
    }
    if (interval_below(interval_multiply(over, interval_whole(16)), under)) stop("sigma %s: below 1/16", sigma);
    if (!interval_below(over, interval_multiply(under, interval_whole(128)))) stop("sigma %s: not below 128", sigma);
    return interval_divide(square(under), twice(square(over)));
}

/*
 * Whether a sum can end with twice this term, in place of it and all that follow. `ratio` is that of the next term to this one, and it
 * falls from term to term: below 1/2 here, so that all of them together are at most twice this one. As a lower bound that must be 0.
 */
static bool is_last(struct interval term, struct interval ratio) {
    return interval_vanished(term) && interval_below(twice(ratio), interval_whole(1));
}

/* exp(x) = 1 + x + x^2 / 2 + x^3 / 6 + .. */
static struct interval exponential(struct interval x) {
    struct interval sum = interval_whole(0), term = interval_whole(1);
    for (uint32_t k = 1;; k++) {
        struct interval ratio = interval_divide(x, interval_whole(k));
        if (is_last(term, ratio)) return interval_add(sum, twice(term));
        sum = interval_add(sum, term);
        term = interval_multiply(term, ratio);
    }
}

/*
 * The chances of the distances 0 to 128, given x = 1 / (2 sigma^2). With q = exp(-x), rho(v) is q^(v^2), and rho(v + 1) is rho(v) times
 * q^(2 v + 1), the ratio: one exponential does for all of them.
 */
static void curve(struct interval x, struct interval *chances) {
    struct interval q = interval_divide(interval_whole(1), exponential(x));
    struct interval rho = interval_whole(1), ratio = q, sum = interval_whole(0);
    for (size_t v = 0; v <= ROWS || !is_last(rho, ratio); v++) {
        struct interval both = v == 0 ? rho : twice(rho);
        if (v <= ROWS) chances[v] = both;
        sum = interval_add(sum, both);
        rho = interval_multiply(rho, ratio);
        ratio = interval_multiply(ratio, square(q));
    }
    sum = interval_add(sum, twice(twice(rho))); /* twice for the end of the sum, and twice for both signs */
    for (size_t v = 0; v <= ROWS; v++) chances[v] = interval_divide(chances[v], sum);
}

/* Lays row v and tells the column of its first entry that is 1, or `columns` where all are 0. */
static size_t lay_row(const char *sigma, size_t v, struct interval chance, size_t columns, uint8_t *row) {
    if (!interval_bits(chance, columns, row)) stop("sigma %s: row %zu is not certain; raise FRACTION_LIMBS", sigma, v);
    const uint8_t *first = memchr(row, 1, columns);
    return first ? (size_t)(first - row) : columns;
}

size_t gaussian_table(const char *sigma, size_t columns, uint8_t *entries) {
    static struct interval chances[ROWS + 1];
    uint8_t beyond[CORKHOLLOW_COLUMNS];
    if (columns < 1 || columns > CORKHOLLOW_COLUMNS) stop("the columns are not 1 to %d", CORKHOLLOW_COLUMNS);
    curve(read_sigma(sigma), chances);
    size_t fit = lay_row(sigma, ROWS, chances[ROWS], columns, beyond);
    if (fit < columns) stop("sigma %s: %zu columns would need more than %d rows; %zu columns are the most", sigma, columns, ROWS, fit);
    size_t rows = 0;
    for (size_t v = 0; v < ROWS; v++) {
        if (lay_row(sigma, v, chances[v], columns, entries + v * columns) < columns) rows = v + 1;
    }
    if (rows == 0) stop("sigma %s: with %zu columns every row is 0; take more", sigma, columns);
    return rows;
}

/* Column by column: the open places of the tree double, and each entry that is set closes one. */
uint64_t gaussian_misses(const uint8_t *entries, size_t rows, size_t columns) {
    uint64_t open = 1;
    for (size_t c = 0; c < columns; c++) {
        open *= 2;
        for (size_t v = 0; v < rows; v++) open -= entries[v * columns + c];
    }
    return open;
}
