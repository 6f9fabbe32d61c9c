/*
 * Each function of corkhollow.h called from C, with its types written out again: so the header's declarations are compared, compiled and
 * used. And the header's numbers, for a comparison with the reference's and the Rust binding's.
 */
#include "corkhollow.h"

_Static_assert(sizeof(size_t) == 8, "Rust's usize");
_Static_assert(sizeof(bool) == 1, "Rust's bool");

/* A call that fits may hide a declaration of another type, so the types are compared as well. */
#define SAME_TYPE(name) \
    _Static_assert(__builtin_types_compatible_p(__typeof__(corkhollow_##name), __typeof__(through_##name)), #name)

/* ---- matrix files ---- */

uint32_t through_read(const uint8_t *file, size_t file_length, uint8_t *entries, size_t entries_length, size_t *rows, size_t *columns)
{
    return corkhollow_read(file, file_length, entries, entries_length, rows, columns);
}
SAME_TYPE(read);

uint32_t through_write(size_t rows, size_t columns, const uint8_t *entries, size_t entries_length, uint8_t *file, size_t file_length,
                       size_t *length)
{
    return corkhollow_write(rows, columns, entries, entries_length, file, file_length, length);
}
SAME_TYPE(write);

uint32_t through_build(const uint32_t *weights, size_t weights_length, size_t columns, bool is_signed, uint8_t *file, size_t file_length,
                       size_t *length)
{
    return corkhollow_build(weights, weights_length, columns, is_signed, file, file_length, length);
}
SAME_TYPE(build);

uint32_t through_walk(const uint8_t *file, size_t file_length, const uint8_t *string, size_t string_length, size_t *row, size_t *used)
{
    return corkhollow_walk(file, file_length, string, string_length, row, used);
}
SAME_TYPE(walk);

uint32_t through_spent(const uint8_t *file, size_t file_length, const uint8_t *strings, size_t strings_length, size_t *total)
{
    return corkhollow_spent(file, file_length, strings, strings_length, total);
}
SAME_TYPE(spent);

uint32_t through_string_for(const uint8_t *file, size_t file_length, size_t row, uint8_t *string, size_t string_length, bool *found)
{
    return corkhollow_string_for(file, file_length, row, string, string_length, found);
}
SAME_TYPE(string_for);

uint32_t through_compile(const uint8_t *file, size_t file_length, uint8_t *program, size_t program_length, size_t *length)
{
    return corkhollow_compile(file, file_length, program, program_length, length);
}
SAME_TYPE(compile);

/* ---- program files ---- */

uint32_t through_check(const uint8_t *program, size_t program_length, size_t *registers, size_t *inputs, size_t *outputs, size_t *rows,
                       uint32_t *count)
{
    return corkhollow_check(program, program_length, registers, inputs, outputs, rows, count);
}
SAME_TYPE(check);

uint32_t through_start(const uint8_t *program, size_t program_length, const uint64_t *inputs, size_t inputs_length, uint64_t *registers,
                       size_t registers_length, uint64_t *outputs, size_t outputs_length, uint32_t budget, uint32_t *position,
                       uint32_t *count, bool *finished)
{
    return corkhollow_start(program, program_length, inputs, inputs_length, registers, registers_length, outputs, outputs_length, budget,
                            position, count, finished);
}
SAME_TYPE(start);

uint32_t through_resume(const uint8_t *program, size_t program_length, const uint64_t *inputs, size_t inputs_length, uint64_t *registers,
                        size_t registers_length, uint64_t *outputs, size_t outputs_length, uint32_t position, uint32_t budget,
                        uint32_t *position_out, uint32_t *count, bool *finished)
{
    return corkhollow_resume(program, program_length, inputs, inputs_length, registers, registers_length, outputs, outputs_length,
                             position, budget, position_out, count, finished);
}
SAME_TYPE(resume);

/* ---- lanes ---- */

uint32_t through_slice(size_t columns, const uint8_t *strings, size_t strings_length, uint64_t *words, size_t words_length)
{
    return corkhollow_slice(columns, strings, strings_length, words, words_length);
}
SAME_TYPE(slice);

uint32_t through_samples(size_t rows, const uint64_t *outputs, size_t outputs_length, uint8_t *samples, size_t samples_length)
{
    return corkhollow_samples(rows, outputs, outputs_length, samples, samples_length);
}
SAME_TYPE(samples);

uint32_t through_signed_samples(size_t rows, const uint64_t *outputs, size_t outputs_length, uint64_t sign, int16_t *samples,
                                size_t samples_length)
{
    return corkhollow_signed_samples(rows, outputs, outputs_length, sign, samples, samples_length);
}
SAME_TYPE(signed_samples);

/* ---- all in one call ---- */

uint32_t through_draw(const uint8_t *program, size_t program_length, const uint8_t *strings, size_t strings_length, uint8_t *samples,
                      size_t samples_length)
{
    return corkhollow_draw(program, program_length, strings, strings_length, samples, samples_length);
}
SAME_TYPE(draw);

uint32_t through_draw_signed(const uint8_t *program, size_t program_length, const uint8_t *strings, size_t strings_length, uint64_t sign,
                             int16_t *samples, size_t samples_length)
{
    return corkhollow_draw_signed(program, program_length, strings, strings_length, sign, samples, samples_length);
}
SAME_TYPE(draw_signed);

/* ---- wide bells ---- */

uint32_t through_combine(const int16_t *x1, size_t x1_length, const int16_t *x2, size_t x2_length, const int16_t *x3, size_t x3_length,
                         const int16_t *x4, size_t x4_length, uint32_t first, uint32_t second, int32_t *results, size_t results_length)
{
    return corkhollow_combine(x1, x1_length, x2, x2_length, x3, x3_length, x4, x4_length, first, second, results, results_length);
}
SAME_TYPE(combine);

/* ---- cumulative tables ---- */

uint32_t through_import(const uint64_t *table, size_t table_length, size_t columns, uint8_t *file, size_t file_length, size_t *length)
{
    return corkhollow_import(table, table_length, columns, file, file_length, length);
}
SAME_TYPE(import);

uint32_t through_export(const uint8_t *file, size_t file_length, uint64_t *table, size_t table_length, size_t *numbers, size_t *columns)
{
    return corkhollow_export(file, file_length, table, table_length, numbers, columns);
}
SAME_TYPE(export);

uint32_t through_lookup(const uint64_t *table, size_t table_length, size_t columns, uint64_t r, size_t *sample)
{
    return corkhollow_lookup(table, table_length, columns, r, sample);
}
SAME_TYPE(lookup);

/* ---- pools ---- */

uint32_t through_pool_open(size_t words, struct corkhollow_signer *signers, size_t signers_length)
{
    return corkhollow_pool_open(words, signers, signers_length);
}
SAME_TYPE(pool_open);

uint32_t through_pool_draw(size_t words, struct corkhollow_signer *signers, size_t signers_length, size_t signer, size_t q, size_t *start)
{
    return corkhollow_pool_draw(words, signers, signers_length, signer, q, start);
}
SAME_TYPE(pool_draw);

uint32_t through_pool_refill(size_t words, struct corkhollow_signer *signers, size_t signers_length)
{
    return corkhollow_pool_refill(words, signers, signers_length);
}
SAME_TYPE(pool_refill);

/* The numbers of a record are of 32 bits and without a sign. */
#define IS_SHORT(field) _Static_assert(_Generic(((struct corkhollow_signer *)0)->field, uint32_t: 1, default: 0), #field)
IS_SHORT(reserve);
IS_SHORT(cap);
IS_SHORT(drawn);

/* The bytes of a record, its alignment, and where reserve, cap and drawn lie. */
const size_t through_signer[] = {
    sizeof(struct corkhollow_signer),
    _Alignof(struct corkhollow_signer),
    offsetof(struct corkhollow_signer, reserve),
    offsetof(struct corkhollow_signer, cap),
    offsetof(struct corkhollow_signer, drawn),
};

/* ---- numbers, in the order of src/numbers.rs ---- */

const uint64_t through_numbers[] = {
    CORKHOLLOW_OK,
    CORKHOLLOW_SHORT,
    CORKHOLLOW_KIND,
    CORKHOLLOW_SIZE,
    CORKHOLLOW_LENGTH,
    CORKHOLLOW_BIT,
    CORKHOLLOW_SUM,
    CORKHOLLOW_INSTRUCTION,
    CORKHOLLOW_OPERAND,
    CORKHOLLOW_UNWRITTEN,
    CORKHOLLOW_UNSET,
    CORKHOLLOW_WEIGHTLESS,
    CORKHOLLOW_POSITION,
    CORKHOLLOW_BUFFER,
    CORKHOLLOW_MULTIPLIER,
    CORKHOLLOW_TABLE,
    CORKHOLLOW_STEP,
    CORKHOLLOW_SIGNER,
    CORKHOLLOW_CAP,
    CORKHOLLOW_RESERVE,
    CORKHOLLOW_LANES,
    CORKHOLLOW_ROWS,
    CORKHOLLOW_COLUMNS,
    CORKHOLLOW_REGISTERS,
    CORKHOLLOW_INPUTS,
    CORKHOLLOW_OUTPUTS,
    CORKHOLLOW_INSTRUCTIONS,
    CORKHOLLOW_MOST_MULTIPLIER,
    CORKHOLLOW_TABLE_COLUMNS,
    CORKHOLLOW_SIGNERS,
    CORKHOLLOW_POOL_WORDS,
    CORKHOLLOW_MISS,
    CORKHOLLOW_SIGNED_MISS,
    CORKHOLLOW_COMBINED_MISS,
    CORKHOLLOW_MOST_ENTRIES,
    CORKHOLLOW_MOST_MATRIX_BYTES,
    CORKHOLLOW_MOST_PROGRAM_BYTES,
    CORKHOLLOW_MOST_STRING_BYTES,
    CORKHOLLOW_MOST_TABLE_NUMBERS,
};
const size_t through_numbers_length = sizeof through_numbers / sizeof through_numbers[0];

/* Lengths are of the type that the functions take. */
#define IS_LENGTH(number) _Static_assert(_Generic((number), size_t: 1, default: 0), #number)
IS_LENGTH(CORKHOLLOW_WIDTH(1));
IS_LENGTH(CORKHOLLOW_MATRIX_LENGTH(1, 1));
IS_LENGTH(CORKHOLLOW_MOST_ENTRIES);
IS_LENGTH(CORKHOLLOW_MOST_MATRIX_BYTES);
IS_LENGTH(CORKHOLLOW_MOST_PROGRAM_BYTES);
IS_LENGTH(CORKHOLLOW_MOST_STRING_BYTES);
IS_LENGTH(CORKHOLLOW_MOST_TABLE_NUMBERS);

size_t through_width(size_t columns)
{
    return CORKHOLLOW_WIDTH(columns);
}

size_t through_matrix_length(size_t rows, size_t columns)
{
    return CORKHOLLOW_MATRIX_LENGTH(rows, columns);
}
