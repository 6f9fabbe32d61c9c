//! 02, order 8: matrices, weights and strings of 129 to 192 columns, and one more; each refusal
//! around that limit with its neighbours; the curve of source document 002 with 192 columns, and the
//! longest program that a matrix has. The limits of rows and of cumulative tables stay.

use super::cases::{
    build, compile, draws, export, read, rewrite, slice, spent, stops, walk, write,
};
use super::damaged::all_uses_of_matrix;
use super::line::Line;
use super::sound::{around, single};
use super::wanted::{all_rows, exact, one_and_ones, rooms};
use super::worked::{file_of, file_with, totals};
use crate::compiler::translate;
use crate::damage::{edited, matrix_edits, matrix_limit_edits};
use crate::extremes::longest_program;
use crate::matrix::{file_length, MOST_COLUMNS, MOST_ROWS};
use crate::natural::Natural;
use crate::random::{self, Random};
use crate::record::pack;
use crate::tables::document_002_fine;
use crate::wanted;

/// The first columns that were refused, others that fill their bytes, and the last two.
const WIDE: [usize; 4] = [129, 136, 191, 192];

/// Columns that are refused: the next, and ones of which 8, 16, 32 or 63 bits are within.
const WIDER: [usize; 6] = [
    193,
    256 + 192,
    65_536 + 129,
    (1 << 32) + 192,
    (1 << 63) + 192,
    usize::MAX,
];

/// The largest weight, and the least of which twice as much has 33 bits.
const MOST: u32 = u32::MAX;
const HALF: u32 = 1 << 31;

/// Lists with their columns: a weight that has all of S, quotients that repeat a digit, weights up to
/// the largest.
const LISTS: [(&[u32], usize); 7] = [
    (&[5], 192),
    (&[0, 5], 129),
    (&[1, 2, 0], 192),
    (&[1, HALF], 192),
    (&[HALF - 1, HALF, HALF + 1], 129),
    (&[MOST, MOST], 191),
    (&[0, MOST, 1], 136),
];

/// One row, set in this column alone.
fn set_in(column: usize, columns: usize) -> String {
    let (before, after) = ("0".repeat(column), "0".repeat(columns - 1 - column));
    format!("{before}1{after}")
}

/// A string of so many columns that begins with these bits, and then 0.
fn begun(first: u8, columns: usize) -> Vec<u8> {
    let mut string = vec![0; columns.div_ceil(8)];
    string[0] = first;
    string
}

/// The cases that are the same at every scale.
pub fn fixed(random: &mut Random, put: &mut dyn FnMut(Line)) {
    limits(put);
    headers(put);
    faults(put);
    for columns in [129, 191, 192] {
        totals(columns, columns, put);
    }
    weights(put);
    walks(put);
    for columns in WIDE {
        all_rows(&one_and_ones(columns), put);
    }
    rooms(MOST_COLUMNS, put);
    slices(random, put);
    document(random, put);
    longest(random, put);
}

/// Columns within and outside from each operation that is told them, with nothing else in order; and
/// files of 192 and of 193 columns given to each operation that takes one.
fn limits(put: &mut dyn FnMut(Line)) {
    for columns in WIDE.into_iter().chain(WIDER) {
        put(slice(columns, &[], 0));
        put(write(1, columns, &[], 0));
        put(build(&[1], columns, false, 0));
        put(build(&[0], columns, true, 0));
    }
    for columns in [192, 193] {
        put(write(MOST_ROWS + 1, columns, &[2], 0));
        put(build(&[], columns, true, 0));
        all_uses_of_matrix(&file_of(&[&"0".repeat(columns)]), put);
    }
    for columns in WIDE {
        let zeros = "0".repeat(columns);
        put(read(&file_of(&[&zeros]), columns - 1));
        put(read(&file_of(&[&zeros]), columns));
    }
    let ones = [1; MOST_COLUMNS];
    for (given, file_lent) in [(191, 32), (192, 31), (192, 32)] {
        put(write(1, MOST_COLUMNS, &ones[..given], file_lent));
    }
}

/// Headers around the limit: sound, and with two faults. 192 columns take 24 bytes, 193 take 25.
fn headers(put: &mut dyn FnMut(Line)) {
    for (length, kind, rows, columns, bytes) in [
        (32, 32, 1, 192, 24),
        // 2 and 1 before 3
        (33, 16, 1, 193, 25),
        (33, 32, 1, 193, 24),
        // 3, for either size or both, before 4
        (33, 32, 1, 193, 25),
        (32, 32, 1, 193, 24),
        (33, 32, 129, 193, 25),
        (32, 32, 129, 192, 24),
        (32, 32, 0, 192, 24),
        (32, 32, 1, 256 + 192, 24),
        (32, 32, 1, 65_535, 24),
        // 4: a field too small, or too large where the bytes are there; bytes left over
        (31, 32, 1, 192, 24),
        (33, 32, 1, 192, 25),
        (32, 32, 1, 192, 25),
        (25, 32, 1, 129, 17),
        (24, 32, 1, 129, 16),
        (24, 32, 1, 129, 17),
    ] {
        put(read(&file_with(length, kind, rows, columns, bytes), 192));
    }
}

/// Spare bits, the highest and the lowest that there are, and T above 2^n, each with what is tried
/// before and after it. An export tries columns above 63 after these, and room after that.
fn faults(put: &mut dyn FnMut(Line)) {
    for (columns, spare) in [(129, 0x40), (191, 0x01)] {
        let ones = "1".repeat(columns);
        let mut file = file_of(&[&ones, &ones]);
        put(read(&file, 0));
        put(export(&file, 0));
        *file.last_mut().expect("a row") |= spare;
        put(read(&file, 0));
        put(export(&file, 0));
        file.push(0);
        put(read(&file, 0));
    }
    for columns in WIDE {
        let file = file_of(&[&set_in(0, columns)]);
        put(export(&file, 0));
        put(export(&file, 2));
    }
    let mut entries = [1; 2 * 129];
    put(write(2, 129, &entries, 0));
    entries[257] = 2;
    put(write(2, 129, &entries, 0));
    put(write(2, 129, &entries[..257], 0));
}

/// Lists for both uses, with room that is exact and one short; the most weights, with the most
/// columns; and each of 3, 11 and 13 with the next.
fn weights(put: &mut dyn FnMut(Line)) {
    for (list, columns) in LISTS {
        let length = file_length(list.len(), columns);
        for signed in [false, true] {
            put(build(list, columns, signed, length));
        }
        put(build(list, columns, columns % 2 == 0, length - 1));
    }
    let all = [MOST; MOST_ROWS];
    let length = file_length(MOST_ROWS, MOST_COLUMNS);
    put(build(&all, MOST_COLUMNS, true, length));
    put(build(&[0; 3], MOST_COLUMNS, true, 0));
    put(build(&[0; 3], MOST_COLUMNS + 1, true, 0));
    put(build(&[1, 2], MOST_COLUMNS + 1, false, 4_096));
}

/// Hits in the last column, and strings that miss: a distance that wraps in 64 or 128 bits would be
/// back at 0 there, or in column 64 or 128. Strings too short, longer, and with spare bits.
fn walks(put: &mut dyn FnMut(Line)) {
    for (column, columns) in [
        (128, 129),
        (129, 130),
        (190, 191),
        (191, 192),
        (64, 192),
        (128, 192),
    ] {
        let file = file_of(&[&set_in(column, columns)]);
        put(walk(&file, &begun(0x00, columns)));
        put(walk(&file, &begun(0x80, columns)));
    }
    for (columns, spare) in [(129, 0x40), (129, 0x01), (191, 0x01)] {
        let file = file_of(&[&set_in(0, columns)]);
        let mut string = begun(0x00, columns);
        put(walk(&file, &string[1..]));
        *string.last_mut().expect("a byte") = spare;
        put(walk(&file, &string));
        put(walk(&file, &string[1..]));
    }
    let file = file_of(&[&set_in(191, 192)]);
    put(walk(&file, &[begun(0x00, 192), vec![0xff]].concat()));
    // 64 strings use all columns, half of them with a hit in the last, and together 12,288.
    let both = [begun(0x00, 192), begun(0x80, 192)].concat();
    put(spent(&file, &both.repeat(32)));
}

/// Strings of which the words of the last columns are a third block of 64; and a spare bit in the
/// last string, and in the first, with room for the words and without.
fn slices(random: &mut Random, put: &mut dyn FnMut(Line)) {
    for (columns, words_lent) in [(129, 129), (136, 137), (191, 191), (192, 192)] {
        let strings = random::packed_strings(random, columns, 64);
        put(slice(columns, &strings, words_lent));
    }
    for (columns, byte, words_lent) in [(129, 64 * 17 - 1, 128), (191, 23, 191)] {
        let mut strings = random::packed_strings(random, columns, 64);
        strings[byte] |= 1;
        put(slice(columns, &strings, words_lent));
    }
}

/// Source document 002's curve with 192 columns: its program; and what is drawn for the strings of
/// its last rows, the least and the largest that miss, and any.
fn document(random: &mut Random, put: &mut dyn FnMut(Line)) {
    let table = document_002_fine();
    let file = table.encode();
    put(compile(&file, translate(&table).length()));
    let mut strings: Vec<u8> = (table.rows - 48..table.rows)
        .flat_map(|row| {
            let string = wanted::string_for(&file, row, exact(&table));
            string.expect("a sound table").expect("a row above 0")
        })
        .collect();
    let misses = |i: u64| table.total().plus(&Natural::from(i)).bits(table.columns);
    for bits in [misses(0), misses(1), vec![1; table.columns]] {
        strings.extend(pack(&bits));
    }
    strings.extend(random::packed_strings(random, table.columns, 64 - 48 - 3));
    put(draws(&file, &strings, random.word()));
}

/// The longest program: stopped on both sides of 131,072, the limit before 02, order 8, and of its
/// count, 178,509, and resumed each time, at last where it has finished.
fn longest(random: &mut Random, put: &mut dyn FnMut(Line)) {
    let inputs = random.words(MOST_COLUMNS);
    let budgets = [131_071, 1, 1, 178_508 - 131_073, 0, 1, 7];
    put(stops(&longest_program().encode(), &inputs, &budgets));
}

/// Every number of columns above 128: a matrix read, written and compiled, its strings, what they
/// spend and give; and a list built for both uses.
pub fn thorough(put: &mut dyn FnMut(Line)) {
    let random = &mut Random::new(super::SEED);
    for columns in 129..=MOST_COLUMNS {
        let rows = random.between(1, 6);
        let matrix = random::matrix(random, rows, columns);
        let (file, strings) = (matrix.encode(), random::strings(random, &matrix));
        single(random, &matrix, put);
        put(rewrite(&file));
        put(slice(columns, &strings, columns + 1));
        put(draws(&file, &strings, random.word()));
        put(spent(&file, &strings));
        all_rows(&matrix, put);
        totals(columns, columns, put);
        built(random, rows, columns, put);
    }
}

/// Any weights for both uses, with what is lent a little short, exact or long.
fn built(random: &mut Random, number: usize, columns: usize, put: &mut dyn FnMut(Line)) {
    let list = random::distance_weights(random, number);
    for signed in [false, true] {
        let file_lent = around(random, file_length(number, columns));
        put(build(&list, columns, signed, file_lent));
    }
}

/// Columns above 128: next to a limit, or any.
fn wide_columns(random: &mut Random) -> usize {
    let any = random.between(129, MOST_COLUMNS);
    random.pick(&[any, any, any, 129, 191, 192])
}

/// Random cases: small matrices, weights and strings for rows, with what is lent a little short,
/// exact or long; matrices just above 2^n; files with one fault or two; and 64 strings drawn.
pub fn round(random: &mut Random, put: &mut dyn FnMut(Line)) {
    let (rows, columns) = (random.between(1, 3), wide_columns(random));
    let matrix = random::matrix(random, rows, columns);
    single(random, &matrix, put);
    all_rows(&matrix, put);
    for _ in 0..2 {
        let (number, columns) = (random.between(1, 4), wide_columns(random));
        built(random, number, columns, put);
    }
    let (rows, columns) = (random.between(2, 4), wide_columns(random));
    if let Some(matrix) = random::matrix_just_above(random, rows, columns) {
        put(compile(&matrix.encode(), 0));
    }
    for _ in 0..6 {
        put(damaged(random));
    }
    let (rows, columns) = (random.between(1, 9), wide_columns(random));
    let matrix = random::matrix(random, rows, columns);
    let strings = random::strings(random, &matrix);
    put(draws(&matrix.encode(), &strings, random.word()));
}

/// A matrix file of few rows with its columns set next to their limit, and in half of the cases with
/// another edit.
fn damaged(random: &mut Random) -> Line {
    let (rows, columns) = (random.between(1, 2), wide_columns(random));
    let matrix = random::matrix(random, rows, columns);
    let file = matrix.encode();
    let mut edits = vec![random.pick(&matrix_limit_edits(&file))];
    if random.bit() == 1 {
        edits.push(random.pick(&matrix_edits(&file)));
    }
    let damaged = edited(&file, &edits);
    match random.below(4) {
        0 => compile(&damaged, 0),
        1 => walk(&damaged, &vec![0xff; random.below(26)]),
        _ => read(&damaged, random.pick(&[0, rows * columns])),
    }
}
