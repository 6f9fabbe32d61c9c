//! 02, order 7: strings for the rows of matrices, also of those that are all zero or are set in the
//! last column alone; limits, what is lent one short, exact and longer, and the refusals: the
//! matrix's, and each of 6, 3 and 13 with the later ones.

use super::cases::string_for;
use super::line::Line;
use super::sound::around;
use super::COLUMNS_BEFORE;
use crate::damage::{edited, matrix_edits};
use crate::extremes::longest_program_of;
use crate::matrix::{Matrix, MOST_COLUMNS};
use crate::random::{self, Random};
use crate::record::packed_length;
use crate::tables::{document_001, document_002, document_004};

/// The rows that 01 works out.
const THREE: [&str; 3] = ["10", "01", "01"];

/// Matrices of which every row is asked for: one row, rows that are all zero at the front, in the
/// middle, at the end and all of them, rows that leave misses and rows that leave none, rows that
/// one string alone hits; eight columns, one less and one more.
const SMALL: [&[&str]; 14] = [
    &["1"],
    &["0"],
    &["1", "1"],
    &["00", "00"],
    &THREE,
    &["01", "01", "01"],
    &["001", "000", "010", "011"],
    &["111", "001"],
    &["001", "111"],
    &["000", "111", "001", "000"],
    &["0000011", "0000001", "0000111"],
    &["10000000", "01111111", "00000001"],
    &["00000001", "11111111"],
    &["000000001", "100000000", "011111111"],
];

/// Numbers of rows that three rows do not have: the next, around the limits, ones of which 8, 16, 32
/// or 63 bits are one of theirs, and the largest.
const NO_ROWS: [usize; 12] = [
    3,
    4,
    127,
    128,
    129,
    256,
    65_536 + 1,
    1 << 32,
    (1 << 32) + 2,
    1 << 63,
    (1 << 63) + 1,
    usize::MAX,
];

/// The bytes of a matrix's string.
pub fn exact(matrix: &Matrix) -> usize {
    packed_length(matrix.columns)
}

/// Strings for some rows, with just enough room.
fn some_rows(matrix: &Matrix, rows: &[usize], put: &mut dyn FnMut(Line)) {
    let file = matrix.encode();
    for &row in rows {
        put(string_for(&file, row, exact(matrix)));
    }
}

/// A string for each row.
pub fn all_rows(matrix: &Matrix, put: &mut dyn FnMut(Line)) {
    let rows: Vec<usize> = (0..matrix.rows).collect();
    some_rows(matrix, &rows, put);
}

/// Two rows of so many columns that add up to 2^n: the last column alone, and all of them. The
/// string of all ones alone hits the first.
pub fn one_and_ones(columns: usize) -> Matrix {
    let one = format!("{}1", "0".repeat(columns - 1));
    Matrix::from_texts(&[&one, &"1".repeat(columns)])
}

/// The cases that are the same at every scale.
pub fn fixed(random: &mut Random, put: &mut dyn FnMut(Line)) {
    for texts in SMALL {
        all_rows(&Matrix::from_texts(texts), put);
    }
    for columns in [15, 16, 17, 63, 64, 65, 127, 128] {
        all_rows(&one_and_ones(columns), put);
    }
    many_rows(random, put);
    documents(put);
    for columns in [2, 8, 9, 128] {
        rooms(columns, put);
    }
    refusals(put);
}

/// The most rows: each set in the last of 7 columns alone; all but two of one column zero; set in
/// all of 128 columns from the eighth on; any that add up to 2^128. One more is no row.
fn many_rows(random: &mut Random, put: &mut dyn FnMut(Line)) {
    let last = Matrix::from_texts(&["0000001"; 128]);
    some_rows(&last, &[0, 1, 63, 64, 126, 127, 128], put);
    let mut tall = ["0"; 128];
    (tall[0], tall[127]) = ("1", "1");
    some_rows(&Matrix::from_texts(&tall), &[0, 1, 126, 127], put);
    some_rows(&longest_program_of(COLUMNS_BEFORE), &[0, 127], put);
    let largest = random::matrix_of_parts(random, 128, 128, true);
    some_rows(&largest, &[0, 127], put);
}

/// The tables of the source documents. Of 002's, row 81 is 1, and those after it are all zero.
fn documents(put: &mut dyn FnMut(Line)) {
    all_rows(&document_001(), put);
    all_rows(&document_004(), put);
    some_rows(&document_002(), &[0, 1, 40, 81, 82], put);
}

/// What is lent one short, exact and longer: for a row that the string of all ones alone hits, and
/// for one that none hits.
pub fn rooms(columns: usize, put: &mut dyn FnMut(Line)) {
    let mut matrix = one_and_ones(columns);
    matrix.rows += 1;
    matrix.entries.resize(3 * columns, 0);
    let (file, exact) = (matrix.encode(), exact(&matrix));
    for row in [0, 2] {
        for string_lent in [exact - 1, exact, exact + 1] {
            put(string_for(&file, row, string_lent));
        }
    }
}

/// The matrix's own refusals with a row and room that are sound; 6, with a row that there is not and
/// with no room; 3 with and without room.
fn refusals(put: &mut dyn FnMut(Line)) {
    let file = Matrix::from_texts(&THREE).encode();
    for edit in matrix_edits(&file).into_iter().step_by(4) {
        put(string_for(&edited(&file, &[edit]), 0, 1));
    }
    let above = Matrix::from_texts(&["10", "10", "01"]).encode();
    for (row, string_lent) in [(0, 1), (0, 0), (3, 1), (3, 0)] {
        put(string_for(&above, row, string_lent));
    }
    for (i, row) in NO_ROWS.into_iter().enumerate() {
        put(string_for(&file, row, 1));
        if i % 3 == 0 {
            put(string_for(&file, row, 0));
        }
    }
}

/// Every row of all accepted matrices of few entries, and of two rows of each number of columns.
pub fn thorough(put: &mut dyn FnMut(Line)) {
    for (rows, columns) in [(1, 4), (2, 2), (2, 3), (3, 2), (6, 1)] {
        let size = rows * columns;
        for number in 0..1u32 << size {
            let matrix = Matrix {
                rows,
                columns,
                entries: (0..size).map(|i| (number >> i & 1) as u8).collect(),
            };
            if matrix.is_accepted() {
                all_rows(&matrix, put);
            }
        }
    }
    for columns in 1..=MOST_COLUMNS {
        all_rows(&one_and_ones(columns), put);
    }
}

/// Random cases: rows of small matrices, with what is lent a little short, exact or long; the same
/// with a fault, or two; and a row of a matrix of any sizes.
pub fn round(random: &mut Random, put: &mut dyn FnMut(Line)) {
    for _ in 0..8 {
        let (rows, columns) = (random.between(1, 10), random.between(1, 30));
        let matrix = random::matrix(random, rows, columns);
        let (row, string_lent) = (random.below(rows), around(random, exact(&matrix)));
        put(string_for(&matrix.encode(), row, string_lent));
        put(faulty(random, &matrix));
    }
    let matrix = random::any_matrix_within(random, COLUMNS_BEFORE);
    let row = random.below(matrix.rows);
    some_rows(&matrix, &[row], put);
}

/// A row of a matrix, with one fault or two: of the file, of the row's number, of the room.
fn faulty(random: &mut Random, matrix: &Matrix) -> Line {
    let mut file = matrix.encode();
    let edits = matrix_edits(&file);
    let (mut row, mut string_lent) = (random.below(matrix.rows), exact(matrix));
    for _ in 0..random.between(1, 2) {
        match random.below(3) {
            0 => row = matrix.rows + random.pick(&[0, 0, 1, 256 - matrix.rows, 1 << 32]),
            1 => string_lent = random.below(exact(matrix)),
            _ => random.pick(&edits).apply(&mut file),
        }
    }
    string_for(&file, row, string_lent)
}
