//! Sound matrices of all sizes: read, written, walked, compiled, and run with and without stops;
//! and matrices just not accepted.

use super::cases::{build, compile, draws, read, rewrite, spent, stops, walk, write};
use super::line::Line;
use super::COLUMNS_BEFORE;
use crate::compiler::translate;
use crate::extremes::longest_program_of;
use crate::matrix::{file_length, Matrix};
use crate::random::{self, Random};
use crate::record::pack;
use crate::tables::{document_001, document_002, document_004};

/// The largest matrices whose entries are written out.
const MOST_ENTRIES: usize = 2_048;

/// The cases that are the same at every scale.
pub fn fixed(random: &mut Random, put: &mut dyn FnMut(Line)) {
    for table in [document_001(), document_002(), document_004()] {
        put(read(&table.encode(), table.entries.len()));
        whole(random, &table, put);
        staged(random, &table, put);
    }
    whole(random, &longest_program_of(COLUMNS_BEFORE), put);
    for (rows, columns) in [
        (1, 1),
        (1, 2),
        (2, 1),
        (1, 128),
        (128, 7),
        (128, 8),
        (128, 64),
        (3, 128),
        (127, 128),
        (128, 128),
    ] {
        let matrix = random::matrix_by_columns(random, rows, columns, true);
        whole(random, &matrix, put);
    }
    let largest = random::matrix_of_parts(random, 128, 128, true);
    put(read(&largest.encode(), 16_384));
    put(rewrite(&largest.encode()));
    staged(random, &largest, put);
}

/// Random cases.
pub fn round(random: &mut Random, put: &mut dyn FnMut(Line)) {
    for _ in 0..16 {
        let (rows, columns) = (random.between(1, 10), random.between(1, 16));
        let matrix = random::matrix(random, rows, columns);
        single(random, &matrix, put);
    }
    for _ in 0..5 {
        let (rows, columns) = (random.between(1, 20), random.between(1, 24));
        let matrix = random::matrix(random, rows, columns);
        whole(random, &matrix, put);
        staged(random, &matrix, put);
    }
    let matrix = random::any_matrix_within(random, COLUMNS_BEFORE);
    whole(random, &matrix, put);
    let matrix = random::any_matrix_within(random, COLUMNS_BEFORE);
    staged(random, &matrix, put);
    not_accepted(random, put);
    weights(random, put);
}

/// Each operation that takes a matrix, with what is lent a little short, exact or long.
pub fn single(random: &mut Random, matrix: &Matrix, put: &mut dyn FnMut(Line)) {
    let file = matrix.encode();
    let entries = &matrix.entries;
    put(read(&file, around(random, entries.len())));
    put(write(
        matrix.rows,
        matrix.columns,
        entries,
        around(random, file.len()),
    ));
    let length = translate(matrix).length();
    put(compile(&file, around(random, length)));
    for _ in 0..3 {
        put(walk(&file, &pack(&random::string(random, matrix))));
    }
}

/// The exact length, or one less or more.
pub fn around(random: &mut Random, length: usize) -> usize {
    length + random.pick(&[0, 1, 1, 1, 2]) - 1
}

/// The whole way of a matrix: its program, the samples of 64 strings, and the bits that they spend.
pub fn whole(random: &mut Random, matrix: &Matrix, put: &mut dyn FnMut(Line)) {
    let file = matrix.encode();
    put(compile(&file, translate(matrix).length()));
    let strings = random::strings(random, matrix);
    put(draws(&file, &strings, random.word()));
    put(spent(&file, &strings));
}

/// A run of a matrix's program with some stops.
fn staged(random: &mut Random, matrix: &Matrix, put: &mut dyn FnMut(Line)) {
    let count = translate(matrix).header.count;
    let inputs = random.words(matrix.columns);
    let mut budgets: Vec<u32> = (0..random.between(1, 5))
        .map(|_| random.below(count / 2) as u32)
        .collect();
    budgets.extend(random.pick(&[&[][..], &[u32::MAX], &[0, u32::MAX], &[u32::MAX, 0, 7]]));
    put(stops(&matrix.encode(), &inputs, &budgets));
}

/// Matrices above 2^n by the least amount, entries of any bits, and entries that are no bits.
fn not_accepted(random: &mut Random, put: &mut dyn FnMut(Line)) {
    for _ in 0..3 {
        let (rows, columns) = (random.between(2, 6), random.between(1, 30));
        if let Some(matrix) = random::matrix_just_above(random, rows, columns) {
            put(compile(&matrix.encode(), 100_000));
            put(write(rows, columns, &matrix.entries, 0));
        }
    }
    for _ in 0..4 {
        let (rows, columns) = (random.between(1, 4), random.between(1, 12));
        let mut entries = random.bits(rows * columns);
        put(write(rows, columns, &entries, file_length(rows, columns)));
        let place = random.below(entries.len());
        entries[place] = random.pick(&[0, 1, 2, 3, 128, 254, 255]);
        let given = random.between(entries.len() - 1, entries.len());
        put(write(rows, columns, &entries[..given], 4_096));
    }
    let (rows, columns) = random::sizes_within(random, COLUMNS_BEFORE);
    if rows * columns <= MOST_ENTRIES {
        let matrix = random::matrix(random, rows, columns);
        put(write(
            rows,
            columns,
            &matrix.entries,
            file_length(rows, columns),
        ));
    }
}

/// Weights of all kinds, with what is lent a little short, exact or long.
fn weights(random: &mut Random, put: &mut dyn FnMut(Line)) {
    for _ in 0..8 {
        let (number, columns) = (random.between(1, 9), random.between(1, COLUMNS_BEFORE));
        let list = random::weights(random, number);
        let file_lent = around(random, file_length(number, columns));
        put(build(&list, columns, random.bit() == 1, file_lent));
    }
    let (number, columns) = random::sizes_within(random, COLUMNS_BEFORE);
    let list = random::weights(random, number);
    put(build(
        &list,
        columns,
        random.bit() == 1,
        file_length(number, columns),
    ));
}
