/*
 * Under valgrind's memcheck: marks strings, words, outputs, sign, signed samples and the numbers that are looked up as undefined and runs
 * each operation. memcheck counts every jump and every address that depends on an undefined bit: there must be none, but in the operations
 * that choose by the random bits, in which there must be some, in combining, in which there must be one, whether it refuses the lists, and
 * in looking up, in which there may be two: whether the number is in range, and whether it misses. What an operation leaves must be
 * undefined in turn, so that it did work on the marked bits.
 * usage: marked COLUMNS
 */
#include "operations.h"

#include <inttypes.h>
#include <stdio.h>
#include <stdlib.h>
#include <valgrind/memcheck.h>

/* As many of the bytes as have an undefined bit. */
static size_t undefined_bytes(const void *bytes, size_t size) {
    static uint8_t bits[CORKHOLLOW_COLUMNS * sizeof(uint64_t)];
    size_t many = 0;
    if (size > sizeof bits || VALGRIND_GET_VBITS(bytes, bits, size) != 1) return 0;
    for (size_t i = 0; i < size; i++) many += bits[i] != 0;
    return many;
}

static bool as_it_must(const struct operation *o, struct batch *b) {
    VALGRIND_MAKE_MEM_UNDEFINED(b->strings, sizeof b->strings);
    VALGRIND_MAKE_MEM_UNDEFINED(b->words, sizeof b->words);
    VALGRIND_MAKE_MEM_UNDEFINED(b->outputs, sizeof b->outputs);
    VALGRIND_MAKE_MEM_UNDEFINED(&b->sign, sizeof b->sign);
    VALGRIND_MAKE_MEM_UNDEFINED(b->lists, sizeof b->lists);
    VALGRIND_MAKE_MEM_UNDEFINED(&b->hit, sizeof b->hit);
    VALGRIND_MAKE_MEM_UNDEFINED(&b->miss, sizeof b->miss);
    VALGRIND_MAKE_MEM_DEFINED(o->result, o->size);
    unsigned before = VALGRIND_COUNT_ERRORS;
    o->run(b);
    unsigned choices = VALGRIND_COUNT_ERRORS - before;
    size_t marked = undefined_bytes(o->result, o->size);
    printf("%-18s %7u %10zu of %4zu\n", o->name, choices, marked, o->size);
    if (choices >= o->least && choices <= o->most && marked == o->size) return true;
    printf("%s: it is meant to choose by the bits %" PRIu32 " to %" PRIu32 " times, and all that it leaves to depend on them\n", o->name,
           o->least, o->most);
    return false;
}

int main(int argc, char **argv) {
    static struct batch b;
    if (argc != 2 || !RUNNING_ON_VALGRIND) return printf("usage: valgrind marked COLUMNS\n"), 2;
    if (!program_made(strtoul(argv[1], NULL, 10))) return printf("the table has no program\n"), 1;
    printf("%-9s columns  %7s %18s\n", argv[1], "choices", "bytes that depend");
    for (int i = 0; i < OPERATIONS; i++) {
        random_batch(&b);
        if (!as_it_must(&operations[i], &b)) return 1;
    }
    if (any_refused()) return printf("an operation was refused\n"), 1;
    return 0;
}
