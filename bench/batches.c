/* Random bits, made before any timing. */
#include "bench.h"

/* xorshift: the contenders take the same time for any words, so the words need be no better than this. */
static uint64_t random_word(void) {
    static uint64_t x = 88172645463325252u;
    x ^= x << 13;
    x ^= x >> 7;
    x ^= x << 17;
    return x;
}

/* Eight bytes as a number, the first the highest, as a row of a matrix file is read. */
static uint64_t half(const uint8_t *bytes) {
    uint64_t x = 0;
    for (int i = 0; i < 8; i++) x = x << 8 | bytes[i];
    return x;
}

/* Fills in the other forms of the strings. */
static void complete(struct batch *b) {
    for (int j = 0; j < CORKHOLLOW_LANES; j++) {
        b->numbers[j][0] = half(b->strings + j * WIDTH);
        b->numbers[j][1] = half(b->strings + j * WIDTH + 8);
    }
    refused |= corkhollow_slice(COLUMNS, b->strings, sizeof b->strings, b->words, COLUMNS);
    contenders[START].run(b);
    for (int i = 0; i < CORKHOLLOW_OUTPUTS; i++) b->outputs[i] = outputs[i];
}

/* All ones is above every sum and beyond every leaf: a miss in all lanes, which random words would not show in a lifetime. */
void missing_batch(struct batch *b) {
    for (size_t i = 0; i < sizeof b->strings; i++) b->strings[i] = 0xff;
    b->sign = UINT64_MAX;
    complete(b);
}

void random_batch(struct batch *b) {
    for (size_t i = 0; i < sizeof b->strings; i++) b->strings[i] = random_word() >> 56;
    b->sign = random_word();
    complete(b);
}
