/* What must hold before a time means anything: all contenders give the same, and the scan's table is the matrix's. */
#include "bench.h"

#include <stdio.h>
#include <string.h>

enum { TRIALS = 200 };
typedef unsigned __int128 number;

static number rows[ROWS]; /* as the engine reads them off the matrix file */

static bool rows_read(void) {
    static uint8_t entries[CORKHOLLOW_MOST_ENTRIES];
    size_t m = 0, n = 0;
    if (corkhollow_read(matrix, matrix_length, entries, sizeof entries, &m, &n) || m != ROWS || n != COLUMNS) return false;
    for (int i = 0; i < ROWS * COLUMNS; i++) rows[i / COLUMNS] = rows[i / COLUMNS] << 1 | entries[i];
    return true;
}

/* The (a) and (b) of each kind against the start, word for word. */
static bool programs_agree(const struct batch *b) {
    static const enum which rivals[] = {SWITCH, STRAIGHT, SWITCH_BEST, STRAIGHT_BEST};
    for (size_t i = 0; i < sizeof rivals / sizeof *rivals; i++) {
        memset(outputs, 0x55, sizeof outputs);
        contenders[rivals[i]].run(b);
        if (memcmp(outputs, b->outputs, sizeof outputs)) {
            printf("%s gives other words than the engine\n", contenders[rivals[i]].name);
            return false;
        }
    }
    return true;
}

/* A draw against slice, start and the reading of what they give, which leaves `size` bytes at the same place. */
static bool draw_agrees(enum which draw, enum which reading, const void *left, size_t size, const struct batch *b) {
    uint8_t read[sizeof signed_samples];
    contenders[reading].run(b);
    memcpy(read, left, size);
    contenders[draw].run(b);
    if (!memcmp(read, left, size)) return true;
    printf("%s gives other samples than slice, start and %s\n", contenders[draw].name, contenders[reading].name);
    return false;
}

static bool draws_agree(const struct batch *b) {
    return draw_agrees(DRAW, SAMPLES, samples, sizeof samples, b) &&
           draw_agrees(DRAW_SIGNED, SIGNED, signed_samples, sizeof signed_samples, b);
}

/* The sample of u, by taking row after row off it: every value v has p_v of the numbers. */
static unsigned sample_of(number u) {
    unsigned v = 0;
    while (v < ROWS && u >= rows[v]) u -= rows[v++];
    return v;
}

static bool scan_agrees(enum which scan, const struct batch *b) {
    contenders[scan].run(b);
    for (int j = 0; j < CORKHOLLOW_LANES; j++) {
        unsigned right = sample_of((number)b->numbers[j][0] << 64 | b->numbers[j][1]);
        if (samples[j] == right) continue;
        printf("%s gives %d where the rows give %u\n", contenders[scan].name, samples[j], right);
        return false;
    }
    return true;
}

/* At each sum and just below it, in all lanes in turn: with that, every sum of the scan's table is known to be right. */
static bool edges_agree(enum which scan) {
    static struct batch b;
    number sum = 0;
    for (int v = 0; v < ROWS; v++) {
        sum += rows[v];
        for (int j = 0; j < CORKHOLLOW_LANES; j++) {
            number u = sum - j % 2;
            b.numbers[j][0] = u >> 64;
            b.numbers[j][1] = u;
        }
        if (!scan_agrees(scan, &b)) return false;
    }
    return true;
}

bool all_agree(void) {
    static struct batch b;
    if (!rows_read() || !edges_agree(CDT) || !edges_agree(CDT_BEST)) return false;
    for (int i = 0; i < TRIALS; i++) {
        if (i == 0) missing_batch(&b);
        else random_batch(&b);
        if (!programs_agree(&b) || !draws_agree(&b) || !scan_agrees(CDT, &b) || !scan_agrees(CDT_BEST, &b)) return false;
    }
    return true;
}
