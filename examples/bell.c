#include "bell.h"

#include "chart.h"
#include "common.h"
#include "gaussian.h"

/* An entry in column 0 is worth 1/2, in column 1 1/4, .. */
double bell_proportion(const uint8_t *entries, size_t v) {
    double proportion = 0;
    for (int c = BELL_COLUMNS - 1; c >= 0; c--) proportion = (proportion + entries[v * BELL_COLUMNS + (size_t)c]) / 2;
    return proportion;
}

/* The proportions that the table itself gives, which is what the engine promises. */
static void share_out(const uint8_t *entries, struct bell *bell) {
    for (size_t v = 0; v < bell->rows; v++) {
        double proportion = bell_proportion(entries, v);
        bell->share[BELL_MOST + v] = bell->share[BELL_MOST - v] = v == 0 ? proportion : proportion / 2;
    }
}

void bell_compile(const uint8_t *matrix, size_t length, struct bell *bell) {
    must("corkhollow_compile",
         corkhollow_compile(matrix, length, bell->program, sizeof bell->program, &bell->program_length));
}

void bell_make(const char *sigma, struct bell *bell) {
    static uint8_t entries[CORKHOLLOW_MOST_ENTRIES]; /* the table's, a byte of 0 or 1 each, row after row */
    uint8_t matrix[CORKHOLLOW_MOST_MATRIX_BYTES];
    size_t length;
    *bell = (struct bell){.rows = gaussian_table(sigma, BELL_COLUMNS, entries)};
    bell->misses = gaussian_misses(entries, bell->rows, BELL_COLUMNS);
    share_out(entries, bell);
    must("corkhollow_write", corkhollow_write(bell->rows, BELL_COLUMNS, entries, sizeof entries, matrix, sizeof matrix, &length));
    bell_compile(matrix, length, bell);
}

void bell_draw(const struct bell *bell, FILE *source, int16_t *samples) {
    uint8_t strings[CORKHOLLOW_LANES * CORKHOLLOW_WIDTH(BELL_COLUMNS)];
    uint64_t sign;
    fill(source, strings, sizeof strings);
    fill(source, &sign, sizeof sign);
    must("corkhollow_draw_signed",
         corkhollow_draw_signed(bell->program, bell->program_length, strings, sizeof strings, sign, samples, CORKHOLLOW_LANES));
}

/* Counts 64 samples; tells the misses among them. No other number than those of the table is ever given. */
static int count(const int16_t *samples, uint32_t *drawn) {
    int missed = 0;
    for (int j = 0; j < CORKHOLLOW_LANES; j++) {
        if (samples[j] == CORKHOLLOW_SIGNED_MISS) missed++;
        else drawn[BELL_MOST + samples[j]]++;
    }
    return missed;
}

int bell_tally(const struct bell *bell, int batches, uint32_t *drawn) {
    int16_t samples[CORKHOLLOW_LANES];
    int missed = 0;
    FILE *source = open_random();
    for (int batch = 1; batch <= batches; batch++) {
        bell_draw(bell, source, samples);
        missed += count(samples, drawn);
        chart_progress(batch, batches);
    }
    fclose(source);
    return missed;
}
