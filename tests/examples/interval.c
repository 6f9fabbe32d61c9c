/*
 * Reads intervals a and b, four numbers a line in the hexadecimal digits of all their limbs, and prints a + b, a * b and a / b in the same
 * way, then whether a is below b and whether a has vanished.
 */
#include "interval.h"

#include <inttypes.h>
#include <stdio.h>

static bool get(struct fixed *number) {
    for (int i = LIMBS - 1; i >= 0; i--) {
        if (scanf("%8" SCNx32, &number->limb[i]) != 1) return false;
    }
    return true;
}

static void put(const struct fixed *number) {
    for (int i = LIMBS - 1; i >= 0; i--) printf("%08" PRIx32, number->limb[i]);
    printf(" ");
}

static void put_both(struct interval a) {
    put(&a.low);
    put(&a.high);
}

int main(void) {
    struct interval a, b;
    while (get(&a.low) && get(&a.high) && get(&b.low) && get(&b.high)) {
        put_both(interval_add(a, b));
        put_both(interval_multiply(a, b));
        put_both(interval_divide(a, b));
        printf("%d %d\n", interval_below(a, b), interval_vanished(a));
    }
    return 0;
}
