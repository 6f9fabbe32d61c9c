#define _POSIX_C_SOURCE 200809L
#include "chart.h"

#include <math.h>
#include <stdio.h>
#include <string.h>
#include <unistd.h>

#define TITLE "value"

enum {
    BAR = 50,
    LABEL = 32,
    FEW = 100 /* lines of which less is expected are one at each end: so small a count says little */
};

/* What came of some numbers and what was due, as shares of all that were drawn. */
struct line {
    char label[LABEL];
    double came, due;
};

/* The numbers from the first to the last, without a label. */
static struct line together(const struct chart *chart, int first, int last) {
    struct line line = {.label = ""};
    for (int v = first; v <= last; v++) {
        line.came += (double)chart->drawn[chart->most + v] / chart->samples;
        line.due += chart->expected[chart->most + v];
    }
    return line;
}

/* Line k, counted from that of 0; one beyond the last on either side has all that is left there. */
static struct line line_of(const struct chart *chart, int k, int last) {
    int half = chart->width / 2, first_of = k * chart->width - half, last_of = k * chart->width + half;
    if (k < -last) first_of = -chart->most;
    if (k > last) last_of = chart->most;
    struct line line = together(chart, first_of, last_of);
    if (k < -last) snprintf(line.label, LABEL, "< %d", last_of + 1);
    else if (k > last) snprintf(line.label, LABEL, "> %d", first_of - 1);
    else if (half == 0) snprintf(line.label, LABEL, "%d", k);
    else snprintf(line.label, LABEL, "%d..%d", first_of, last_of);
    return line;
}

/* The last line that is alone, on either side. */
static int last_alone(const struct chart *chart) {
    int most = (chart->most - chart->width / 2) / chart->width, k = 0;
    while (k < most && line_of(chart, k + 1, most).due * chart->samples >= FEW) k++;
    return k;
}

static double longest_bar(const struct chart *chart, int last) {
    double longest = 0;
    for (int k = -last - 1; k <= last + 1; k++) {
        struct line line = line_of(chart, k, last);
        longest = fmax(longest, fmax(line.came, line.due));
    }
    return longest;
}

/* The characters that the title and every label have room in. */
static int label_column(const struct chart *chart, int last) {
    size_t label = strlen(line_of(chart, -last, last).label), title = strlen(TITLE);
    return (int)(label > title ? label : title);
}

/* Both are shares of the longest bar. */
static void print_bar(double came, double due) {
    char bar[BAR + 2];
    int filled = (int)(came * BAR + 0.5), mark = (int)(due * BAR + 0.5);
    memset(bar, ' ', sizeof bar);
    memset(bar, '#', (size_t)filled);
    bar[mark] = '|';
    printf("%.*s\n", filled > mark ? filled : mark + 1, bar);
}

/* So that a reader sees whether the differences are those of chance: one above 4 on either side comes in erfc(4 / sqrt 2) of all lines. */
static void print_largest(double largest, const char *where, int lines) {
    printf("\nlargest difference: %+.1f standard deviations, at %s\n", largest, where);
    printf("(by chance alone it is above 4 in about one run of %.0f)\n", 10 * round(0.1 / (lines * erfc(4 / sqrt(2)))));
}

void chart_print(const struct chart *chart) {
    int last = last_alone(chart), column = label_column(chart, last);
    double longest = longest_bar(chart, last), largest = 0;
    char where[LABEL] = "";
    printf("%*s  %8s %9s  # drawn, | expected\n", column, TITLE, "drawn", "expected");
    for (int k = -last - 1; k <= last + 1; k++) {
        struct line line = line_of(chart, k, last);
        printf("%*s  %7.4f%% %8.4f%%  ", column, line.label, 100 * line.came, 100 * line.due);
        print_bar(line.came / longest, line.due / longest);
        double deviations = (line.came - line.due) / sqrt(line.due * (1 - line.due) / chart->samples);
        if (fabs(deviations) <= fabs(largest)) continue;
        largest = deviations;
        strcpy(where, line.label);
    }
    print_largest(largest, where, 2 * last + 3);
}

void chart_progress(int batch, int batches) {
    int percent = batch * 100 / batches;
    if (percent == (batch - 1) * 100 / batches || !isatty(STDERR_FILENO)) return;
    fprintf(stderr, "\rdrawing %3d%%%s", percent, batch == batches ? "\n" : "");
}
