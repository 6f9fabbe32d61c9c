//! 02, order 4: cumulative tables imported and exported, and numbers looked up in them; limits,
//! every rule on a table's numbers at its first, a middle and its last place, and every refusal,
//! alone and with each later one.

use super::cases::{export, import, lookup};
use super::line::Line;
use super::sound::around;
use crate::cumulative::{LEAST_NUMBERS, MOST_NUMBERS, MOST_TABLE_COLUMNS};
use crate::damage::{edited, matrix_edits, Edit};
use crate::matrix::{file_length, Matrix, MOST_COLUMNS};
use crate::random::{self, Random};
use crate::tables::{document_001, document_002, document_004, document_004_cut};

/// 2^63, the largest number of a table.
const TOP: u64 = 1 << 63;
/// The rows 10, 01, 01.
const THREE: [u64; 4] = [0, 2, 3, 4];

/// Columns within their limits and outside, also ones that 6, 8, 16 or 32 bits would take for
/// sound.
const COLUMNS: [usize; 16] = [
    0,
    1,
    2,
    62,
    63,
    64,
    65,
    127,
    128,
    129,
    256 + 2,
    65_536 + 2,
    1 << 32,
    (1 << 32) + 1,
    (1 << 63) + 1,
    usize::MAX,
];

/// Tables that are imported, with their columns: rows of 0 at the front, in the middle and at the
/// end, or alone; the least and the largest rows; the least and the most columns.
const SOUND: [(&[u64], usize); 22] = [
    (&[0, 0], 1),
    (&[0, 1], 1),
    (&[0, 1, 2], 1),
    (&[0, 0, 1, 1, 1, 2, 2], 1),
    (&[0, 3], 2),
    (&[0, 1, 4], 2),
    (&[0, 3, 4], 2),
    (&[0, 0, 2, 4], 2),
    (&[0, 2, 2, 4], 2),
    (&[0, 2, 4, 4], 2),
    (&[0, 0, 0, 0, 0], 2),
    (&[0, 255, 255, 256], 8),
    (&[0, 1, 257, 512], 9),
    (&[0, 1 << 32], 33),
    (&[0, (1 << 32) - 1, 1 << 32], 32),
    (&[0, 1 << 61, 1 << 62], 62),
    (&[0, 0], 63),
    (&[0, 1], 63),
    (&[0, TOP - 1], 63),
    (&[0, TOP - 1, TOP], 63),
    (&[0, 1, TOP], 63),
    (&[0, 0, 1 << 62, TOP, TOP], 63),
];

/// Tables that are refused with 15: a first number not 0; a fall at the first, a middle and the
/// last place, also one from above 2^n, or by 2^63, or by all; a last number above 2^n.
const NOT_CUMULATIVE: [(&[u64], usize); 23] = [
    (&[1, 1], 2),
    (&[1, 2, 4], 2),
    (&[4, 4], 2),
    (&[TOP, TOP], 63),
    (&[u64::MAX, u64::MAX], 63),
    (&[u64::MAX, 0, 1], 2),
    (&[1 << 32, 1 << 32], 63),
    (&[1, 0], 2),
    (&[0, 3, 2, 4], 2),
    (&[0, 1, 3, 2, 4], 2),
    (&[0, 1, 3, 2], 2),
    (&[0, 2, 4, 0], 2),
    (&[0, 5, 4], 2),
    (&[0, TOP, 0, TOP], 63),
    (&[0, u64::MAX, 0], 63),
    (&[0, u64::MAX, 4], 2),
    (&[0, 1, u64::MAX, u64::MAX - 1], 63),
    (&[0, 3], 1),
    (&[0, 1, 5], 2),
    (&[0, (1 << 32) + 1], 2),
    (&[0, TOP + 1], 63),
    (&[0, 1, u64::MAX], 2),
    (&[0, u64::MAX], 63),
];

/// Tables that are refused with 16: a difference of 2^n at each place of a small one.
const STEPS: [(&[u64], usize); 9] = [
    (&[0, 4], 2),
    (&[0, 0, 4], 2),
    (&[0, 4, 4], 2),
    (&[0, 0, 4, 4], 2),
    (&[0, 2], 1),
    (&[0, 0, 256], 8),
    (&[0, 1 << 62], 62),
    (&[0, TOP], 63),
    (&[0, 0, TOP, TOP], 63),
];

/// Tables with a difference of 2^n that are not cumulative either, before it or after.
const BOTH: [(&[u64], usize); 6] = [
    (&[0, 1, 0, 4], 2),
    (&[0, 4, 3], 2),
    (&[0, 4, 5], 2),
    (&[1, 5], 2),
    (&[0, TOP, TOP - 1], 63),
    (&[TOP, u64::MAX, TOP - 1, u64::MAX], 63),
];

/// The length of the file that a table of sound sizes imports as.
fn imported_length(table: &[u64], columns: usize) -> usize {
    file_length(table.len() - 1, columns)
}

/// The cases that are the same at every scale.
pub fn fixed(random: &mut Random, put: &mut dyn FnMut(Line)) {
    sizes(put);
    rules(put);
    order(put);
    small_lookups(put);
    document(put);
    rooms(put);
    exports(random, put);
    damaged(put);
}

/// Too few numbers and too many, all of them 0, and columns within and outside.
fn sizes(put: &mut dyn FnMut(Line)) {
    for length in [0, 1, 2, 129, 130, 131] {
        put(import(&vec![0; length], 63, 4_096));
    }
    for length in [0, 1, 130] {
        put(lookup(&vec![0; length], 63, 1));
    }
    for (i, columns) in COLUMNS.into_iter().enumerate() {
        put(import(&[0, 1, 1], columns, 24));
        if i % 2 == 1 || columns == 0 {
            put(lookup(&[0, 1, 1], columns, 1));
        }
    }
}

/// Every rule on the numbers of a table, from importing with just enough room, and half of the
/// refused ones from looking up.
fn rules(put: &mut dyn FnMut(Line)) {
    for (table, columns) in SOUND {
        put(import(table, columns, imported_length(table, columns)));
    }
    let refused = NOT_CUMULATIVE.into_iter().chain(STEPS).chain(BOTH);
    for (i, (table, columns)) in refused.enumerate() {
        put(import(table, columns, imported_length(table, columns)));
        if i % 2 == 0 {
            put(lookup(table, columns, 1));
        }
    }
}

/// Each refusal with each that is tried after it: a size, a number of the table, a difference of
/// 2^n, the room.
fn order(put: &mut dyn FnMut(Line)) {
    let falling: Vec<u64> = (0..130).rev().collect();
    put(import(&falling, 63, 0));
    put(lookup(&falling, 63, 0));
    put(import(&[5], 2, 0));
    put(import(&[], 0, 0));
    for (table, _) in [NOT_CUMULATIVE[0], NOT_CUMULATIVE[9], STEPS[0], BOTH[0]] {
        put(import(table, 64, 0));
        put(lookup(table, 0, 1));
        put(import(table, 2, 0));
        put(lookup(table, 2, 0));
        put(lookup(table, 2, 5));
    }
    put(import(&[0, 5], 2, 0));
    put(lookup(&[0, TOP], 63, TOP + 1));
}

/// Every number of small tables, 0 and the first above 2^n included.
fn small_lookups(put: &mut dyn FnMut(Line)) {
    let some: [(&[u64], usize); 4] = [
        (&THREE, 2),
        (&[0, 0, 1, 1, 3, 3], 2),
        (&[0, 0], 1),
        (&[0, 1, 2], 1),
    ];
    for (table, columns) in some {
        for r in 0..=(1 << columns) + 1 {
            put(lookup(table, columns, r));
        }
    }
}

/// Source document 004's table cut to 63 bits: the file, and each number of it looked up, with the
/// next; and outside, also numbers of which 32 or 63 bits are within.
fn document(put: &mut dyn FnMut(Line)) {
    let table = document_004_cut();
    put(import(&table, 63, imported_length(&table, 63)));
    for &number in &table {
        put(lookup(&table, 63, number));
        put(lookup(&table, 63, number + 1));
    }
    for r in [TOP - 1, TOP + 2, TOP + (1 << 32), u64::MAX] {
        put(lookup(&table, 63, r));
    }
    for r in [1 << 32, (1 << 32) + 1, TOP, u64::MAX] {
        put(lookup(&THREE, 2, r));
    }
}

/// What is lent one short, exact and one longer, for a small table and for the longest.
fn rooms(put: &mut dyn FnMut(Line)) {
    for file_lent in [0, 10, 12] {
        put(import(&THREE, 2, file_lent));
    }
    let file = Matrix::from_texts(&["10", "01", "01"]).encode();
    for table_lent in [0, 3, 4, 5] {
        put(export(&file, table_lent));
    }
    let longest: Vec<u64> = (0..MOST_NUMBERS as u64).map(|v| v << 56).collect();
    let length = imported_length(&longest, 63);
    for file_lent in [length - 1, length] {
        put(import(&longest, 63, file_lent));
    }
    for r in [1, TOP] {
        put(lookup(&longest, 63, r));
    }
    let mut tall = ["0"; 128];
    tall[126..].fill("1");
    for table_lent in [128, 129, 131] {
        put(export(&Matrix::from_texts(&tall).encode(), table_lent));
    }
}

/// Matrices of many columns, with a table and without; the source documents' tables have none.
fn exports(random: &mut Random, put: &mut dyn FnMut(Line)) {
    for columns in [1, 7, 8, 9, 31, 32, 33, 62, 63] {
        let matrix = random::matrix_of_parts(random, 3, columns, columns % 2 == 1);
        put(export(&matrix.encode(), 4));
    }
    for (table, columns) in [SOUND[10], SOUND[18], SOUND[19], SOUND[21]] {
        put(export(&matrix_of(table, columns).encode(), table.len()));
    }
    let largest = random::matrix_of_parts(random, 128, 63, true).encode();
    put(export(&largest, 128));
    put(export(&largest, 129));
    for columns in [64, 65, 127, 128] {
        let matrix = random::matrix(random, 2, columns).encode();
        put(export(&matrix, 3));
        put(export(&matrix, 0));
    }
    for table in [document_001(), document_002(), document_004()] {
        put(export(&table.encode(), table.rows + 1));
    }
}

/// The matrix of a table that is imported.
fn matrix_of(table: &[u64], columns: usize) -> Matrix {
    let rows: Vec<_> = table
        .windows(2)
        .map(|pair| (pair[1] - pair[0]).into())
        .collect();
    Matrix::from_values(columns, &rows)
}

/// Files of 65 columns, which have no table, with a fault of the matrix's own before that: 1, 2, 3,
/// 4, 5 and 6, and the last three with a room too short.
fn damaged(put: &mut dyn FnMut(Line)) {
    let half = format!("1{}", "0".repeat(64));
    let file = Matrix::from_texts(&[&half, &half]).encode();
    let field = |at: usize, value: u16| Edit::Field { at, value };
    let bit = |at: usize, bit: u8| Edit::Bit { at, bit };
    let faults = [
        Edit::Cut(file.len() - 1),
        field(2, 16),
        field(4, 129),
        field(6, 64),
        bit(file.len() - 1, 0),
        bit(file.len() - 1, 7),
    ];
    for fault in faults {
        put(export(&edited(&file, &[fault]), 0));
    }
    let small = matrix_of(&THREE, 2).encode();
    for edit in matrix_edits(&small).into_iter().step_by(7) {
        put(export(&edited(&small, &[edit]), 4));
    }
}

/// All tables of two and three numbers up to 2^n + 1, imported and with every number looked up; the
/// matrices of one row of each number of columns.
pub fn thorough(put: &mut dyn FnMut(Line)) {
    for columns in [1, 2] {
        let numbers = 0..=(1 << columns) + 1;
        for first in 0..=1 {
            for second in numbers.clone() {
                all_of(&[first, second], columns, put);
                for third in numbers.clone() {
                    all_of(&[first, second, third], columns, put);
                }
            }
        }
    }
    for columns in 1..=MOST_COLUMNS {
        let ones = "1".repeat(columns);
        put(export(&Matrix::from_texts(&[&ones]).encode(), 2));
    }
}

/// A table imported, and each number looked up in it, 0 and the first above 2^n included.
fn all_of(table: &[u64], columns: usize, put: &mut dyn FnMut(Line)) {
    put(import(table, columns, 16));
    for r in 0..=(1 << columns) + 1 {
        put(lookup(table, columns, r));
    }
}

/// Random cases: tables of all sizes, in half of the cases with a fault, or two; and the files that
/// they import as, sound or damaged.
pub fn round(random: &mut Random, put: &mut dyn FnMut(Line)) {
    for _ in 0..8 {
        let (numbers, columns) = random_sizes(random);
        let table = random::table(random, numbers, columns);
        let lent = around(random, imported_length(&table, columns));
        put(import(&table, columns, lent));
        put(lookup(
            &table,
            columns,
            random::within(random, &table, columns),
        ));
        put(faulty(random, table, columns));
    }
    for _ in 0..6 {
        let (numbers, columns) = random_sizes(random);
        let matrix = random::matrix(random, numbers - 1, columns);
        put(export(&matrix.encode(), around(random, numbers)));
    }
}

/// Sizes of a table: of most of them few numbers.
fn random_sizes(random: &mut Random) -> (usize, usize) {
    let (numbers, columns) = random::table_sizes(random);
    match random.once_in(8) {
        true => (numbers, columns),
        false => (random.between(LEAST_NUMBERS, 9), columns),
    }
}

/// A table with one fault or two, imported or looked up in: of its numbers, of how many they are,
/// of its columns, of the room or the number.
fn faulty(random: &mut Random, mut table: Vec<u64>, mut columns: usize) -> Line {
    let mut r = random::within(random, &table, columns);
    let mut file_lent = imported_length(&table, columns);
    for _ in 0..random.between(1, 2) {
        match random.below(8) {
            0 => r = random::without(random, columns.min(MOST_TABLE_COLUMNS)),
            1 => file_lent = random.below(file_lent + 1),
            2 => columns = random.pick(&COLUMNS),
            3 => table.truncate(random.pick(&[1, table.len() - 1]).max(1)),
            _ => random::table_fault(random, &mut table, columns),
        }
    }
    match random.bit() {
        0 => import(&table, columns, file_lent),
        _ => lookup(&table, columns, r),
    }
}
