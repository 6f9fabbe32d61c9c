/*
 * One buffer of random words, from which three signers draw. Each has a table with columns of its own, so that its batches of 64 samples
 * take other numbers of words, and a reserve and a cap. What they ask for is granted, or refused: above a cap, or where the others would
 * lack words of their reserves. A signer that can not wait has the buffer refilled from /dev/urandom.
 *
 * The program keeps a map of the words that went out. Where one goes out twice between refills, or lies outside the buffer, it says so,
 * with status 1.
 */
#include <string.h>

#include "common.h"

enum { WORDS = 1024, SIGNERS = 3, ROWS = 9 };

/* Who draws: the weights of its table, which add up to a power of two, so that no string misses; and the program of the table. */
struct user {
    size_t columns, rows;
    uint32_t weights[ROWS];
    size_t program_length, batches, samples;
    uint8_t program[CORKHOLLOW_MOST_PROGRAM_BYTES];
};

/* How far 4, 8 and 16 tossed coins are from as many heads as tails. */
static struct user users[SIGNERS] = {
    {.columns = 20, .rows = 3, .weights = {6, 8, 2}},
    {.columns = 128, .rows = 5, .weights = {70, 112, 56, 16, 2}},
    {.columns = 192, .rows = 9, .weights = {12870, 22880, 16016, 8736, 3640, 1120, 240, 32, 2}},
};

/* The pool: the words, the records, and for each word whether it went out since the last refill. */
static uint64_t words[WORDS];
static struct corkhollow_signer signers[SIGNERS] = {
    {.reserve = 96, .cap = 240}, {.reserve = 256, .cap = WORDS}, {.reserve = 192, .cap = 576}};
static bool out[WORDS];
static size_t handed_out, fillings;

/* What is asked for, in this order. What can not wait is asked for again after a refill. */
static const struct {
    size_t signer, batches;
    bool waits;
} asked[] = {
    {1, 5, true},  {1, 1, true}, {0, 2, true}, {2, 1, true},  {0, 5, true}, {0, 4, true},
    {1, 1, false}, {2, 3, true}, {2, 1, true}, {0, 10, true}, {0, 4, true}, {1, 2, false},
};

/* The 64-bit words of a batch: 64 strings of CORKHOLLOW_WIDTH(columns) bytes. */
static size_t batch_words(const struct user *user) { return 8 * CORKHOLLOW_WIDTH(user->columns); }

static void prepare(struct user *user) {
    uint8_t matrix[CORKHOLLOW_MATRIX_LENGTH(ROWS, CORKHOLLOW_COLUMNS)];
    size_t length;
    must("corkhollow_build", corkhollow_build(user->weights, user->rows, user->columns, false, matrix, sizeof matrix, &length));
    must("corkhollow_compile", corkhollow_compile(matrix, length, user->program, sizeof user->program, &user->program_length));
}

/* Fresh words for all of the buffer. */
static void fill_up(FILE *source) {
    fill(source, words, sizeof words);
    memset(out, 0, sizeof out);
    fillings++;
}

/* Notes the words that went out. */
static void note(size_t start, size_t q) {
    for (size_t i = start; i < start + q; i++) {
        if (i >= WORDS || out[i]) {
            fprintf(stderr, "word %zu %s\n", i, i >= WORDS ? "is outside the buffer" : "goes out twice");
            exit(1);
        }
        out[i] = true;
    }
    handed_out += q;
}

/* Draws 64 samples from the words of one batch, which are used then, and wiped. Tells how many of them are no misses. */
static size_t draw(const struct user *user, uint64_t *batch) {
    uint8_t samples[CORKHOLLOW_LANES], *strings = (uint8_t *)batch;
    size_t width = CORKHOLLOW_WIDTH(user->columns), hits = 0;
    for (size_t j = 0; j < CORKHOLLOW_LANES; j++) strings[j * width + width - 1] &= (uint8_t)(0xff << (8 * width - user->columns));
    must("corkhollow_draw",
         corkhollow_draw(user->program, user->program_length, strings, CORKHOLLOW_LANES * width, samples, CORKHOLLOW_LANES));
    for (int j = 0; j < CORKHOLLOW_LANES; j++) hits += samples[j] != CORKHOLLOW_MISS;
    for (size_t i = 0; i < batch_words(user); i++) ((volatile uint64_t *)batch)[i] = 0;
    return hits;
}

/* Tells why a signer gets no words: its own cap, or what is left and what the others lack of it. */
static void explain(size_t signer, uint32_t refusal) {
    size_t left = WORDS, lack = 0;
    for (size_t i = 0; i < SIGNERS; i++) {
        left -= signers[i].drawn;
        if (i != signer && signers[i].drawn < signers[i].reserve) lack += signers[i].reserve - signers[i].drawn;
    }
    printf("     -        -  refused %u: ", refusal);
    if (refusal == CORKHOLLOW_CAP) printf("it has %u, and at most %u\n", signers[signer].drawn, signers[signer].cap);
    else printf("%zu left, of which the others lack %zu\n", left, lack);
}

/* Asks for the words of some batches and draws these, or tells why there are none. */
static bool serve(size_t signer, size_t batches) {
    struct user *user = &users[signer];
    size_t q = batches * batch_words(user), start, samples = 0;
    uint32_t refusal = corkhollow_pool_draw(WORDS, signers, SIGNERS, signer, q, &start);
    printf("%6zu %8zu %6zu ", signer, batches, q);
    if (refusal == CORKHOLLOW_CAP || refusal == CORKHOLLOW_RESERVE) {
        explain(signer, refusal);
        return false;
    }
    must("corkhollow_pool_draw", refusal);
    note(start, q);
    for (size_t i = 0; i < batches; i++) samples += draw(user, words + start + i * batch_words(user));
    printf("%6zu %8zu\n", start, samples);
    user->batches += batches;
    user->samples += samples;
    return true;
}

static void refill(FILE *source) {
    fill_up(source);
    must("corkhollow_pool_refill", corkhollow_pool_refill(WORDS, signers, SIGNERS));
    printf("refilled with %d fresh words\n", WORDS);
}

int main(void) {
    FILE *source = open_random();
    printf("a buffer of %d words\n\nsigner  columns  words a batch  reserve   cap\n", WORDS);
    for (size_t i = 0; i < SIGNERS; i++) {
        prepare(&users[i]);
        printf("%6zu %8zu %14zu %8u %5u\n", i, users[i].columns, batch_words(&users[i]), signers[i].reserve, signers[i].cap);
    }
    fill_up(source);
    must("corkhollow_pool_open", corkhollow_pool_open(WORDS, signers, SIGNERS));
    printf("\nsigner  batches  words   from  samples\n");
    for (size_t i = 0; i < sizeof asked / sizeof *asked; i++) {
        if (serve(asked[i].signer, asked[i].batches) || asked[i].waits) continue;
        refill(source);
        if (!serve(asked[i].signer, asked[i].batches)) return 1;
    }
    fclose(source);
    printf("\n");
    for (size_t i = 0; i < SIGNERS; i++) printf("signer %zu: %zu batches, %zu samples\n", i, users[i].batches, users[i].samples);
    printf("%zu words of %zu fillings went out, none twice\n", handed_out, fillings);
    flush_output();
    return 0;
}
