/*
 * Corkhollow: the 64-lane Knuth-Yao noise engine.
 *
 * A table of probabilities (a matrix file) is compiled to a program of ANDs, ORs and NOTs, which runs on 64-bit words: 64 samples a run.
 * Link libcorkhollow.a, which `bash include/archive` writes to target/staticlib/. It is for x86-64 Linux (ELF, the System V calling
 * convention), and needs nothing but `memset` from outside.
 *
 * What every function keeps to:
 *
 * - It returns 0 (CORKHOLLOW_OK), or the number of one refusal (enum corkhollow_refusal).
 * - It takes any content and any length. A length counts elements, not bytes. Where a length is 0 the pointer is not followed and may be
 *   null; any other pointer to elements is to as many as its length says, aligned for its type. A pointer to one number or one bool, for
 *   an answer, has no length: it is never null, and points to one that is aligned and can be written.
 * - Memory that is changed overlaps nothing else that is lent in the same call. Memory that is only read may overlap other memory that is
 *   only read.
 * - On a refusal nothing lent has changed, the numbers included. On success a buffer has its result at the front; beyond that
 *   nothing has changed.
 * - A buffer longer than needed is never refused, and its rest is neither read nor written. A file is exactly its length: bytes left over
 *   are a refusal. Weights, output words that samples are read off, the numbers of a cumulative table that is imported or looked up, and
 *   the records of a pool are as many as their length says.
 * - A file of 4 bytes or more is tried for its kind before its length: 2 says that it is another file, whole or cut short, and 1 that it
 *   is of the kind expected and shorter than its records say. Under 4 bytes there is no kind to try, and it is 1.
 * - A string of n bits is packed into CORKHOLLOW_WIDTH(n) bytes, bit 0 highest in the first byte. Where n is no multiple of 8, the spare
 *   low bits of the last byte must be 0: clear them in random bytes. README.md has the layout of the files.
 * - It keeps nothing between calls, makes no random bits and always returns.
 *
 * These are proved, with the answers, in the source (crates/corkhollow). The declarations below are not: they are kept in step by
 * the tests in tests/interface.
 *
 * What no theorem speaks of, and tests measure on the archive (tests/interface; of the last, tests/random_bits):
 *
 * - A call takes no memory but its stack, and of that under 12 KiB.
 * - The archive needs `memset` alone from outside, and has no data that can be written. So threads may call at once, also the same
 *   function: a call works on what it is lent and on its own stack. What one call changes is not to be lent to another meanwhile.
 * - Starting, resuming, slicing, reading samples, drawing, combining and looking up carry out the same machine instructions at the same
 *   addresses whatever the random bits are: strings, words, registers, outputs, sign, signed samples with their misses, r. But a spare bit
 *   that is set ends slicing and drawing at once, with its refusal; combining chooses once, after it has looked at all entries of all
 *   lists, whether to refuse them; looking up chooses by r whether it is in range and whether it misses, and no more; and the walk, and
 *   with it corkhollow_spent, chooses by every bit that it reads.
 */
#ifndef CORKHOLLOW_H
#define CORKHOLLOW_H

#include <stdbool.h>
#include <stddef.h>
#include <stdint.h>

#ifdef __cplusplus
extern "C" {
#endif

/* Why an operation was refused. Where a call breaks several rules, each function says below which it tries first. */
enum corkhollow_refusal {
    CORKHOLLOW_OK = 0,
    CORKHOLLOW_SHORT = 1,       /* a file under 4 bytes; a matrix file under 8 bytes or shorter than its length field, a program file under
                                   16, an instruction cut short */
    CORKHOLLOW_KIND = 2,        /* the first record is not of the kind expected: another file, also one cut short, from 4 bytes on */
    CORKHOLLOW_SIZE = 3,        /* rows, columns, weights, registers, inputs, outputs, instructions, output words, numbers of a cumulative
                                   table, a number that is looked up, signers, or words of a pool, outside the limits; outputs, or output
                                   words, that are not as many as their rows take; a row asked for that the matrix has not; reserves that
                                   no pool can be opened with, or records that no draws can have left */
    CORKHOLLOW_LENGTH = 4,      /* a length field that is not what the header requires, a program's header of other than 16 bytes, or bytes
                                   left over */
    CORKHOLLOW_BIT = 5,         /* a spare bit set, an entry neither 0 nor 1, or an entry of a list that is no signed sample */
    CORKHOLLOW_SUM = 6,         /* the rows of the matrix add up to more than 2^columns */
    CORKHOLLOW_INSTRUCTION = 7, /* an instruction's kind is not 1 to 7, or its length not that kind's */
    CORKHOLLOW_OPERAND = 8,     /* an operand is not below its count */
    CORKHOLLOW_UNWRITTEN = 9,   /* a register is read that no earlier instruction wrote */
    CORKHOLLOW_UNSET = 10,      /* an output that no instruction sets */
    CORKHOLLOW_WEIGHTLESS = 11, /* all weights are 0 */
    CORKHOLLOW_POSITION = 12,   /* a resume position above the program's instruction count */
    CORKHOLLOW_BUFFER = 13,     /* a lent buffer is too short for its own input or its own result */
    CORKHOLLOW_MULTIPLIER = 14, /* a multiplier outside 1 to 1,000 */
    CORKHOLLOW_TABLE = 15,      /* a table that is not cumulative: its first number is not 0, one falls, or the last is above 2^columns */
    CORKHOLLOW_STEP = 16,       /* a cumulative table with a difference of 2^columns, which no row can hold */
    CORKHOLLOW_SIGNER = 17,     /* a signer number that the pool was not opened with */
    CORKHOLLOW_CAP = 18,        /* a draw above its signer's cap */
    CORKHOLLOW_RESERVE = 19     /* a draw after which fewer words would be left than the other signers lack of their reserves, or of more
                                   words than are left */
};

/* Limits. Rows, columns, weights, registers, inputs, outputs, multipliers and signers begin at 1, instructions and words of a pool at 0. */
#define CORKHOLLOW_LANES 64
#define CORKHOLLOW_ROWS 128
#define CORKHOLLOW_COLUMNS 192
#define CORKHOLLOW_REGISTERS 1024
#define CORKHOLLOW_INPUTS 192
#define CORKHOLLOW_OUTPUTS 8
#define CORKHOLLOW_INSTRUCTIONS 262144
#define CORKHOLLOW_MOST_MULTIPLIER 1000
#define CORKHOLLOW_TABLE_COLUMNS 63 /* of a cumulative table, and of a matrix that has one */
#define CORKHOLLOW_SIGNERS 16
#define CORKHOLLOW_POOL_WORDS 65536

/* What stands for a miss: as a sample or a row, drawn or looked up, as a signed sample, and as a result of combining. */
#define CORKHOLLOW_MISS 255
#define CORKHOLLOW_SIGNED_MISS 32767
#define CORKHOLLOW_COMBINED_MISS 2147483647

/* The bytes of one packed string or row, and of a matrix file. */
#define CORKHOLLOW_WIDTH(columns) (((size_t)(columns) + 7) / 8)
#define CORKHOLLOW_MATRIX_LENGTH(rows, columns) (8 + (size_t)(rows) * CORKHOLLOW_WIDTH(columns))

/* Buffers of these lengths are never too short: entries, a matrix file, a program file, the 64 strings of a batch, a cumulative table. */
#define CORKHOLLOW_MOST_ENTRIES ((size_t)CORKHOLLOW_ROWS * CORKHOLLOW_COLUMNS)
#define CORKHOLLOW_MOST_MATRIX_BYTES CORKHOLLOW_MATRIX_LENGTH(CORKHOLLOW_ROWS, CORKHOLLOW_COLUMNS)
#define CORKHOLLOW_MOST_PROGRAM_BYTES (16 + 10 * (size_t)CORKHOLLOW_INSTRUCTIONS)
#define CORKHOLLOW_MOST_STRING_BYTES (CORKHOLLOW_LANES * CORKHOLLOW_WIDTH(CORKHOLLOW_COLUMNS))
#define CORKHOLLOW_MOST_TABLE_NUMBERS ((size_t)CORKHOLLOW_ROWS + 1)

/* ---- matrix files ---- */

/*
 * Reads a matrix file: its entries, a byte of 0 or 1 each, row after row, at the front of `entries`, and its sizes.
 * Refusals, in the order tried: 1 under 4 bytes, 2, 1, 3, 4, 5, 6 for the file; 13 for `entries` under rows * columns.
 */
uint32_t corkhollow_read(const uint8_t *file, size_t file_length,
                         uint8_t *entries, size_t entries_length,
                         size_t *rows, size_t *columns);

/*
 * Writes a matrix file of the first rows * columns entries, row after row, and its length.
 * Refusals, in the order tried: 3 for the sizes, 13 for `entries`, 5 for an entry, 6, 13 for `file`.
 */
uint32_t corkhollow_write(size_t rows, size_t columns,
                          const uint8_t *entries, size_t entries_length,
                          uint8_t *file, size_t file_length,
                          size_t *length);

/*
 * Builds a matrix file from weights, and tells its length. A row built from w is the largest number of `columns` bits not above
 * 2^columns * w / S.
 *
 * For plain use weight v is that of sample v: S is the sum of all weights, and row v is built from weight v.
 *
 * For signed use (`is_signed`) weight v is that of the values v and -v, each, and 0 has only one sign: S is weight 0 and twice all others,
 * row 0 is built from weight 0, and every other row v from twice weight v. So every value, 0 too, comes in proportion to its weight, as
 * near as the columns allow. Give the curve's own weights, and halve or double none: whoever passes `is_signed` and halves weight 0, as was
 * right where `is_signed` had no effect, must stop. Draw with corkhollow_draw_signed; corkhollow_draw gives the distances alone.
 *
 * A list that was built for plain use and is drawn with a sign gives 0 twice as often as a value of the same weight.
 *
 * Refusals, in the order tried, the same for both uses: 3 for the number of weights or columns, 11, 13 for `file`.
 */
uint32_t corkhollow_build(const uint32_t *weights, size_t weights_length,
                          size_t columns, bool is_signed,
                          uint8_t *file, size_t file_length,
                          size_t *length);

/*
 * Walks a matrix file on one packed string of as many bits as it has columns: the row that is hit, or CORKHOLLOW_MISS, and how many
 * columns the walk used, one bit each: c + 1 for a hit in column c, counted from 0, and all columns for a miss. No later bit has any
 * bearing on the row. What the walk used says something of the row: keep it as secret.
 * Refusals, in the order tried: 1 under 4 bytes, 2, 1, 3, 4, 5, 6 for the file; 13, then 5 for the string.
 */
uint32_t corkhollow_walk(const uint8_t *file, size_t file_length,
                         const uint8_t *string, size_t string_length,
                         size_t *row, size_t *used);

/*
 * Adds up the columns that the walks on 64 packed strings use, one string after another, of as many bits each as the matrix file has
 * columns: the bits that 64 samples cost where a walk takes them one by one. The total is from 64 to 64 * columns. Keep it secret too.
 * Refusals, in the order tried: 1 under 4 bytes, 2, 1, 3, 4, 5, 6 for the file; 13, then 5 for `strings`.
 */
uint32_t corkhollow_spent(const uint8_t *file, size_t file_length,
                          const uint8_t *strings, size_t strings_length,
                          size_t *total);

/*
 * Finds a string for a wanted sample, for self-tests: of the strings of as many bits as the matrix file has columns, the smallest, as a
 * number with bit 0 highest, on which the walk hits this row. Tells in `found` whether there is one. Where there is, it lies packed at the
 * front of `string`, spare low bits 0. There is none exactly where the row is all zero, and then nothing is written to `string`.
 *
 * The walk hits in the first column in which the row is set, and the bits after that are 0. Any lane of the compiled program that carries
 * the string gives the row too, whatever the other lanes carry. The string is the same each time: what is drawn from it is no secret.
 * Refusals, in the order tried: 1 under 4 bytes, 2, 1, 3, 4, 5, 6 for the file; 3 for a row not below the file's rows; 13 for `string`
 * under CORKHOLLOW_WIDTH(columns), also where the row is all zero.
 */
uint32_t corkhollow_string_for(const uint8_t *file, size_t file_length,
                               size_t row,
                               uint8_t *string, size_t string_length,
                               bool *found);

/* ---- program files ---- */

/*
 * The header of a program file says its rows, those of the matrix file that it was compiled from: no sample of the program is as large. Its
 * outputs are one that says whether a lane hits and, after it, one for each bit of the largest sample: with 1 row none, with 2 rows 1, with
 * up to 4 rows 2, up to 8 rows 3, up to 16 rows 4, up to 32 rows 5, up to 64 rows 6, up to 128 rows 7.
 *
 * A program file from before that, whose header has 14 bytes and no rows, is 4: compile its matrix file again.
 */

/*
 * Compiles a matrix file to a program file, and tells its length.
 * Refusals, in the order tried: 1 under 4 bytes, 2, 1, 3, 4, 5, 6 for the file; 13 for `program`.
 */
uint32_t corkhollow_compile(const uint8_t *file, size_t file_length,
                            uint8_t *program, size_t program_length,
                            size_t *length);

/*
 * Checks a program file: the registers, inputs and outputs that it takes, its rows, and its number of instructions.
 * Refusals, in the order tried: 1 under 4 bytes, 2, 1 under 16 bytes, 4 for a header length other than 16; 3 for registers, inputs,
 * outputs, rows or instructions outside the limits, or for outputs that are not as many as the rows take; 1, 7, 8, 9 for each instruction
 * in turn; 4 for bytes left over; 10.
 */
uint32_t corkhollow_check(const uint8_t *program, size_t program_length,
                          size_t *registers, size_t *inputs, size_t *outputs, size_t *rows, uint32_t *count);

/*
 * Starts a program: the whole program is checked, the registers and outputs that its header counts are set to 0, and it runs from
 * instruction 0 until `budget` instructions are carried out or none is left. Tells the position reached, the instructions carried out in
 * this call, and whether the program has finished. None of the three depends on the words.
 * Refusals, in the order tried: those of corkhollow_check; 13 for `inputs`, `registers` or `outputs`.
 */
uint32_t corkhollow_start(const uint8_t *program, size_t program_length,
                          const uint64_t *inputs, size_t inputs_length,
                          uint64_t *registers, size_t registers_length,
                          uint64_t *outputs, size_t outputs_length,
                          uint32_t budget,
                          uint32_t *position, uint32_t *count, bool *finished);

/*
 * Resumes a program, checked again, at a position and clears nothing: with program, inputs, registers and outputs as a stop left them it
 * ends as the unbroken run does. Input words that no instruction before the position reads may be filled in between. The saved registers
 * and outputs may be put back into other buffers: only their first words, as many as the program has registers and outputs, must be those
 * that the stop left. Tells what corkhollow_start tells, the position in `position_out`.
 * Refusals, in the order tried: those of corkhollow_check; 12; 13 for `inputs`, `registers` or `outputs`.
 */
uint32_t corkhollow_resume(const uint8_t *program, size_t program_length,
                           const uint64_t *inputs, size_t inputs_length,
                           uint64_t *registers, size_t registers_length,
                           uint64_t *outputs, size_t outputs_length,
                           uint32_t position, uint32_t budget,
                           uint32_t *position_out, uint32_t *count, bool *finished);

/* ---- lanes ---- */

/*
 * Slices 64 packed strings, one after another, of `columns` bits each, into `columns` words: bit j of word i is bit i of string j.
 * Refusals, in the order tried: 3 for the columns, 13 for `strings`, 5 for a spare bit, 13 for `words`.
 */
uint32_t corkhollow_slice(size_t columns,
                          const uint8_t *strings, size_t strings_length,
                          uint64_t *words, size_t words_length);

/*
 * Reads 64 samples off output words: sample j is the number that bit j of words 1 and up spells, lowest first, where bit j of word 0 is
 * set and the number is below `rows`, and otherwise CORKHOLLOW_MISS. Give the rows of the program that left the words, and lend as many
 * words as it has outputs, no more: corkhollow_check tells both. No lane of a compiled program spells a number that is not below its rows.
 * Refusals, in the order tried: 3 for `rows` outside 1 to 128, or for other than as many words as these rows take; 13 for `samples` under
 * 64.
 */
uint32_t corkhollow_samples(size_t rows,
                            const uint64_t *outputs, size_t outputs_length,
                            uint8_t *samples, size_t samples_length);

/*
 * Reads 64 signed samples: sample j is negated where bit j of `sign` is set. Zero stays zero, and a miss, also that of a lane whose number
 * is not below `rows`, is CORKHOLLOW_SIGNED_MISS whatever its sign.
 * Refusals as for corkhollow_samples.
 */
uint32_t corkhollow_signed_samples(size_t rows,
                                   const uint64_t *outputs, size_t outputs_length,
                                   uint64_t sign,
                                   int16_t *samples, size_t samples_length);

/* ---- all in one call ---- */

/*
 * Draws 64 samples: checks the program, slices 64 packed strings of as many bits as it has inputs, starts it on words of the engine's own
 * until it finishes, and reads the samples with the rows that its header says. No batch can inherit another's words.
 * Refusals, in the order tried: those of corkhollow_check; 13, then 5 for `strings`; 13 for `samples` under 64.
 */
uint32_t corkhollow_draw(const uint8_t *program, size_t program_length,
                         const uint8_t *strings, size_t strings_length,
                         uint8_t *samples, size_t samples_length);

/*
 * Draws 64 signed samples, with a sign word as for corkhollow_signed_samples.
 * Refusals as for corkhollow_draw.
 */
uint32_t corkhollow_draw_signed(const uint8_t *program, size_t program_length,
                                const uint8_t *strings, size_t strings_length,
                                uint64_t sign,
                                int16_t *samples, size_t samples_length);

/* ---- wide bells ---- */

/*
 * Combines four lists of 64 signed samples, entry by entry: result j is (x1 + first * x2) + second * (x3 + first * x4) of the four
 * entries j, or CORKHOLLOW_COMBINED_MISS where any of these is CORKHOLLOW_SIGNED_MISS. No result of four values is the miss: it is at most
 * 127,254,127 in size. Samples of deviation s give results of deviation s * sqrt((1 + first^2) * (1 + second^2)): with the multipliers 3
 * and 11, deviation 6.15543 becomes 215.
 *
 * So it is where the lists are independent, each drawn from fresh strings with a fresh sign word: a list that is lent twice is not refused,
 * but what comes of it is no wide bell. Entries beyond the 64th are not read.
 * Refusals, in the order tried: 14 for `first` or `second`; 13 for a list or `results` under 64; 5 for an entry that is neither
 * CORKHOLLOW_SIGNED_MISS nor from -127 to 127, also where another of its lane is a miss.
 */
uint32_t corkhollow_combine(const int16_t *x1, size_t x1_length,
                            const int16_t *x2, size_t x2_length,
                            const int16_t *x3, size_t x3_length,
                            const int16_t *x4, size_t x4_length,
                            uint32_t first, uint32_t second,
                            int32_t *results, size_t results_length);

/* ---- cumulative tables ---- */

/*
 * Imports a cumulative table, of 2 to 129 numbers for 1 to 63 columns: writes the matrix file of which row v is number v + 1 less number v,
 * and tells its length. The first number is 0, none is below the one before it, and the last is at most 2^columns. What is left to
 * 2^columns is what misses. For signed use row 0 is the share of 0, and row v that of v and -v together.
 *
 * Number v is how many of the numbers 1 to 2^columns give a sample below v. Tables are kept in other ways too, and are to be made one of
 * these, since some are taken as they stand and give other shares:
 * - searched for T[s] <= x < T[s+1] with x from 0: it is this table, and r is x + 1;
 * - without the 0: put it in front;
 * - with the largest x of each sample, x from 0, so that the last number is 2^columns - 1: add 1 to each, then put 0 in front;
 * - with the shares above each value: take each from 2^columns, and put 0 in front and 2^columns behind;
 * - of 64 bits and more: divide each number by a power of two so that 63 are left, and make the last 2^63 where nothing is to miss.
 *
 * Refusals, in the order tried: 3 for `table_length` or the columns; 15 for a first number that is not 0, one below the one before it, or a
 * last above 2^columns; 16 for a difference of 2^columns; 13 for `file`.
 */
uint32_t corkhollow_import(const uint64_t *table, size_t table_length,
                           size_t columns,
                           uint8_t *file, size_t file_length,
                           size_t *length);

/*
 * Exports the cumulative table of a matrix file of at most 63 columns: at the front of `table` one number more than it has rows, of which
 * number v is the sum of the rows before v, and tells how many they are, and the columns. Imported with these columns it is the same file.
 * Refusals, in the order tried: 1 under 4 bytes, 2, 1, 3, 4, 5, 6 for the file; 3 for columns above 63; 13 for `table`.
 */
uint32_t corkhollow_export(const uint8_t *file, size_t file_length,
                           uint64_t *table, size_t table_length,
                           size_t *numbers, size_t *columns);

/*
 * Looks r up in a cumulative table: the sample s of which number s is below r and number s + 1 is not, or CORKHOLLOW_MISS where r is above
 * the last. Over all r each sample comes as often as over all strings of the program that the imported table compiles to, but not from the
 * same bits.
 *
 * r must be uniform over 1 to 2^columns: take the number of `columns` random bits and add 1. Numbers from 0 to 2^columns - 1 are off by
 * one: 0 is refused, and 2^columns never comes, so that the miss, or the last sample that has a share, has one less than the table says.
 * r is as secret as the sample. It is compared with every number, and no comparison decides what is done next, but whether r is in range
 * and, at the end, whether it misses. The table, which is no secret, is checked anew on every call, and how long that takes depends on it.
 * Refusals, in the order tried: 3 for `table_length`, the columns, or r outside 1 to 2^columns; 15 and 16 as for corkhollow_import.
 */
uint32_t corkhollow_lookup(const uint64_t *table, size_t table_length,
                           size_t columns,
                           uint64_t r,
                           size_t *sample);

/* ---- pools ---- */

/*
 * One buffer of random words, from which 1 to 16 signers draw; they are numbered from 0 in the order of their records. Each is sure of its
 * reserve, whatever the others draw, and has at most its cap. Words go out in order from word 0 on, none twice between refills.
 *
 * The engine keeps no pool. The buffer, its number of words and the records are the caller's: lend every call the number and the records as
 * the call before left them, and change nothing in them. No word is read, copied or cleared: a draw tells where in the buffer its words
 * start. A word is what the caller counts in, of 64 bits, say. Words that went out are the caller's to wipe once they are used.
 *
 * `words` is not held against the buffer, which is not lent: where it is above the buffer's words, or another than at the opening, words
 * are handed out that are not there, or go out twice. It counts words, not bytes.
 *
 * Threads that share a pool must take turns in these calls, since each changes the records.
 */
struct corkhollow_signer {
    uint32_t reserve; /* the words that it is sure of, at most its cap */
    uint32_t cap;     /* the most words that it may draw between refills; it may be above the words that there are */
    uint32_t drawn;   /* the words that it has drawn since the opening or the last refill: set by the functions below alone */
};

/* The layout of a record that the archive has: 12 bytes, aligned as its numbers, without a gap. */
#define CORKHOLLOW_SIGNER_FITS(alignment) \
    (sizeof(struct corkhollow_signer) == 12 && (alignment) == 4 && offsetof(struct corkhollow_signer, reserve) == 0 && \
     offsetof(struct corkhollow_signer, cap) == 4 && offsetof(struct corkhollow_signer, drawn) == 8)
#if defined(__cplusplus) && __cplusplus >= 201103L
static_assert(CORKHOLLOW_SIGNER_FITS(alignof(struct corkhollow_signer)), "the layout of struct corkhollow_signer");
#elif defined(__STDC_VERSION__) && __STDC_VERSION__ >= 201112L
_Static_assert(CORKHOLLOW_SIGNER_FITS(_Alignof(struct corkhollow_signer)), "the layout of struct corkhollow_signer");
#endif

/*
 * Opens a pool of `words` words and `signers_length` signers, of which each record says reserve and cap: sets every `drawn` to 0, whatever
 * it held. Fill the buffer with random words before the first draw.
 * Refusals: 3 for `words` above 65,536, for `signers_length` outside 1 to 16, for a reserve above its cap, or for reserves that together
 * are above `words`.
 */
uint32_t corkhollow_pool_open(size_t words,
                              struct corkhollow_signer *signers, size_t signers_length);

/*
 * Draws the next q words for one signer: tells in `start` the number of the first, so that they are the words from `start` on, and adds q
 * to the signer's `drawn`. Nothing else changes. With q = 0 it tells where the next words start, which is `words` where none is left. What
 * `start` holds before is of no account. A draw that keeps the signer within its reserve is always granted, whatever the others have drawn.
 *
 * Refusals, in the order tried: 3 for records that no opening and draws on so many words can leave; 17 for `signer` not below
 * `signers_length`; 18 where the signer would have drawn more than its cap; 19 where fewer words would be left than the other signers
 * together lack of their reserves, or where q exceeds those left. The 3 is for what corkhollow_pool_open refuses, for a `drawn` above its
 * cap, and for fewer words than the larger of `drawn` and `reserve` of all signers together. No more is checked: records that were changed,
 * or older ones that are put back, pass where an opening and draws could have left them, and words may then go out twice.
 */
uint32_t corkhollow_pool_draw(size_t words,
                              struct corkhollow_signer *signers, size_t signers_length,
                              size_t signer, size_t q,
                              size_t *start);

/*
 * Refills a pool: sets every `drawn` to 0, so that the next draw starts at word 0 again. Before this, when no signer uses its words any
 * more, put fresh random words into the buffer in the place of all that went out: the call sees no word, and without that the next draws
 * hand the old ones out again.
 * Refusals: 3 for the records, as for corkhollow_pool_draw.
 */
uint32_t corkhollow_pool_refill(size_t words,
                                struct corkhollow_signer *signers, size_t signers_length);

#ifdef __cplusplus
}
#endif

#endif
