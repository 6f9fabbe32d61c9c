//! 02, order 3: files of the other sort, whole and cut short, files of other kinds, and short files
//! of the right kind.

use super::cases::{check, read};
use super::damaged::{all_uses_of_matrix, all_uses_of_program, least_program, small_matrix};
use super::line::Line;
use crate::compiler::translate;
use crate::damage::{edited, Edit};
use crate::matrix::{Matrix, MATRIX_HEADER};
use crate::program::PROGRAM_HEADER;

/// The lengths next to a limit: the bytes that tell a kind, a matrix's header, a program's header.
const LIMITS: [usize; 5] = [3, 4, 7, 8, 15];

/// The cases that are the same at every scale.
pub fn fixed(put: &mut dyn FnMut(Line)) {
    let one_read = |file: &[u8]| read(file, 0);
    cut(&listed_program(), all_uses_of_matrix, one_read, put);
    cut(&wide_matrix(), all_uses_of_program, check, put);
    let three = translate(&Matrix::from_texts(&["10", "01", "01"])).encode();
    for program in [least_program(), three] {
        put(one_read(&program[..MATRIX_HEADER]));
        put(one_read(&program[..PROGRAM_HEADER - 1]));
    }
    for file in [Matrix::from_texts(&["1"]).encode(), small_matrix()] {
        put(check(&file[..4]));
        put(check(&file[..MATRIX_HEADER]));
    }
    of_the_right_kind(put);
    of_other_kinds(put);
}

/// A file cut to each length below a program's header, and whole. The whole, and what is next to a
/// limit, is given to each operation, the others to one.
fn cut(
    file: &[u8],
    uses: fn(&[u8], &mut dyn FnMut(Line)),
    one_use: fn(&[u8]) -> Line,
    put: &mut dyn FnMut(Line),
) {
    for length in (0..PROGRAM_HEADER).chain([file.len()]) {
        if LIMITS.contains(&length) || length == file.len() {
            uses(&file[..length], put);
        } else {
            put(one_use(&file[..length]));
        }
    }
}

/// Short files of the right kind: four bytes alone, and a header without its last byte.
fn of_the_right_kind(put: &mut dyn FnMut(Line)) {
    for length in [4, MATRIX_HEADER - 1] {
        all_uses_of_matrix(&small_matrix()[..length], put);
    }
    for length in [4, PROGRAM_HEADER - 1] {
        all_uses_of_program(&least_program()[..length], put);
    }
}

/// Four bytes alone with some other kind: 0, the other sort's, the right one with another high byte
/// (288 is 0x0120, 272 is 0x0110) or with its bytes exchanged, the largest; and a matrix of a
/// program's kind whose length field says more than there is.
fn of_other_kinds(put: &mut dyn FnMut(Line)) {
    for kind in [0, 16, 288, 0x2000, 65_535] {
        put(read(&with(&small_matrix(), 9, kind)[..4], 0));
    }
    for kind in [0, 272, 0x1000, 65_535] {
        put(check(&with(&least_program(), 16, kind)[..4]));
    }
    all_uses_of_matrix(&with(&small_matrix(), 65_535, 16), put);
}

/// Many kinds and length fields at each length around the limits.
pub fn thorough(put: &mut dyn FnMut(Line)) {
    for kind in [0, 15, 16, 17, 31, 32, 33, 272, 288, 0x1000, 0x2000, 65_535] {
        for length in [0, 8, 9, 14, 16, 65_535] {
            let matrix = with(&wide_matrix(), length, kind);
            let program = with(&least_program(), length, kind);
            for end in 3..=PROGRAM_HEADER {
                put(read(&matrix[..end], 64));
                put(check(&program[..end]));
            }
        }
    }
}

/// The file with another length field and another kind.
fn with(file: &[u8], length: u16, kind: u16) -> Vec<u8> {
    let field = |at: usize, value: u16| Edit::Field { at, value };
    edited(file, &[field(0, length), field(2, kind)])
}

/// Four rows of eleven columns: as many bytes as a program's header has.
fn wide_matrix() -> Vec<u8> {
    let rows = ["10000000001", "00100000000", "01011111110", "00000000001"];
    Matrix::from_texts(&rows).encode()
}

/// The program of rows 1, 1 of one column, which 01 lists.
fn listed_program() -> Vec<u8> {
    translate(&Matrix::from_texts(&["1", "1"])).encode()
}
