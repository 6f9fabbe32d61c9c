#include "interval.h"

#include <assert.h>

enum { FRACTION_BITS = 32 * FRACTION_LIMBS, BITS = 32 * LIMBS };

static bool bit(const struct fixed *a, int i) { return a->limb[i / 32] >> (i % 32) & 1; }

static void add(struct fixed *a, const struct fixed *b) {
    uint64_t carry = 0;
    for (int i = 0; i < LIMBS; i++) {
        carry += (uint64_t)a->limb[i] + b->limb[i];
        a->limb[i] = (uint32_t)carry;
        carry >>= 32;
    }
    assert(carry == 0);
}

/* Takes b, which is not above a, from a. */
static void subtract(struct fixed *a, const struct fixed *b) {
    uint64_t borrow = 0;
    for (int i = 0; i < LIMBS; i++) {
        uint64_t difference = (uint64_t)a->limb[i] - b->limb[i] - borrow;
        a->limb[i] = (uint32_t)difference;
        borrow = difference >> 63;
    }
    assert(borrow == 0);
}

static bool less(const struct fixed *a, const struct fixed *b) {
    for (int i = LIMBS - 1; i >= 0; i--) {
        if (a->limb[i] != b->limb[i]) return a->limb[i] < b->limb[i];
    }
    return false;
}

/* Doubles a number and puts a bit in at its lowest place. */
static void shift(struct fixed *a, bool low) {
    uint32_t carry = low;
    for (int i = 0; i < LIMBS; i++) {
        uint32_t limb = a->limb[i];
        a->limb[i] = limb << 1 | carry;
        carry = limb >> 31;
    }
    assert(carry == 0);
}

static bool is_zero(const uint32_t *limb, int limbs) {
    for (int i = 0; i < limbs; i++) {
        if (limb[i] != 0) return false;
    }
    return true;
}

static struct fixed next(struct fixed a) {
    const struct fixed unit = {{1}};
    add(&a, &unit);
    return a;
}

/* The product rounded down, or up. */
static struct fixed product(const struct fixed *a, const struct fixed *b, bool up) {
    uint32_t wide[2 * LIMBS] = {0};
    for (int i = 0; i < LIMBS; i++) {
        uint64_t carry = 0;
        for (int j = 0; j < LIMBS; j++) {
            carry += (uint64_t)a->limb[i] * b->limb[j] + wide[i + j];
            wide[i + j] = (uint32_t)carry;
            carry >>= 32;
        }
        wide[i + LIMBS] = (uint32_t)carry;
    }
    assert(is_zero(wide + FRACTION_LIMBS + LIMBS, WHOLE_LIMBS));
    struct fixed result;
    for (int i = 0; i < LIMBS; i++) result.limb[i] = wide[FRACTION_LIMBS + i];
    return up && !is_zero(wide, FRACTION_LIMBS) ? next(result) : result;
}

/* The quotient rounded down, or up: long division, the bits of a and then as many zeros as there are bits behind the point. */
static struct fixed quotient(const struct fixed *a, const struct fixed *b, bool up) {
    struct fixed result = {{0}}, rest = {{0}};
    assert(!is_zero(b->limb, LIMBS));
    for (int i = BITS - 1; i >= -FRACTION_BITS; i--) {
        shift(&rest, i >= 0 && bit(a, i));
        bool goes = !less(&rest, b);
        if (goes) subtract(&rest, b);
        shift(&result, goes);
    }
    return up && !is_zero(rest.limb, LIMBS) ? next(result) : result;
}

struct interval interval_whole(uint32_t n) {
    struct interval result = {{{0}}, {{0}}};
    result.low.limb[FRACTION_LIMBS] = result.high.limb[FRACTION_LIMBS] = n;
    return result;
}

struct interval interval_add(struct interval a, struct interval b) {
    add(&a.low, &b.low);
    add(&a.high, &b.high);
    return a;
}

struct interval interval_multiply(struct interval a, struct interval b) {
    return (struct interval){product(&a.low, &b.low, false), product(&a.high, &b.high, true)};
}

struct interval interval_divide(struct interval a, struct interval b) {
    return (struct interval){quotient(&a.low, &b.high, false), quotient(&a.high, &b.low, true)};
}

bool interval_below(struct interval a, struct interval b) { return less(&a.high, &b.low); }

bool interval_vanished(struct interval a) { return is_zero(a.low.limb, LIMBS); }

bool interval_bits(struct interval a, size_t n, uint8_t *bits) {
    assert(n <= FRACTION_BITS);
    if (!is_zero(a.high.limb + FRACTION_LIMBS, WHOLE_LIMBS)) return false;
    for (size_t c = 0; c < n; c++) {
        int place = FRACTION_BITS - 1 - (int)c;
        bits[c] = bit(&a.low, place);
        if (bits[c] != bit(&a.high, place)) return false;
    }
    return true;
}
