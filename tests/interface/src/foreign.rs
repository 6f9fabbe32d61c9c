//! 02, order 3, "Foreign file or short file": the files that it speaks of, given to every function that takes a file. The number that each
//! must return is the one that stands there, and the reference must return it too.

use crate::cumulative::export_on;
use crate::lanes::{draw_on, draw_signed_on};
use crate::matrices::{compile_on, read_on, spent_on, walk_on};
use crate::programs::{check_on, resume_on, start_on, Words};
use crate::trial::{fail, Trial};
use crate::wanted::string_for_on;
use reference::compiler::translate;
use reference::matrix::Matrix;
use reference::random::Random;

/// The numbers of 02: a file under four bytes, or short and of the right kind; a file of another kind.
const SHORT: u32 = 1;
const FOREIGN: u32 = 2;

/// Gives a file to a function, with nothing else lent.
pub type Call = fn(&mut Trial, &mut Random, &[u8]) -> u32;

/// The functions that take a matrix file.
pub const OF_MATRIX: [(&str, Call); 6] = [
    ("read", |trial, random, file| {
        read_on(trial, random, file, 0)
    }),
    ("walk", |trial, random, file| {
        walk_on(trial, random, file, &[]).0
    }),
    ("spent", |trial, random, file| {
        spent_on(trial, random, file, &[]).0
    }),
    ("string_for", |trial, random, file| {
        string_for_on(trial, random, file, usize::MAX, &[]).0
    }),
    ("compile", |trial, random, file| {
        compile_on(trial, random, file, 0).0
    }),
    ("export", |trial, random, file| {
        export_on(trial, random, file, 0)
    }),
];

/// The functions that take a program file.
pub const OF_PROGRAM: [(&str, Call); 5] = [
    ("check", check_on),
    ("start", |trial, random, file| {
        start_on(trial, random, file, &Words::default(), 0)
    }),
    ("resume", |trial, random, file| {
        resume_on(trial, random, file, &Words::default(), u32::MAX, 0)
    }),
    ("draw", |trial, random, file| {
        draw_on(trial, random, file, &[], 0).0
    }),
    ("draw_signed", |trial, random, file| {
        draw_signed_on(trial, random, file, &[], 0, 0).0
    }),
];

/// Kinds that no file has: the least and the largest, a file's with another high byte (288 is 0x0120, 272 is 0x0110), and a file's with its
/// bytes exchanged.
const NO_KINDS: [u16; 6] = [0, 272, 288, 0x1000, 0x2000, 65_535];

/// A file, and the number that it is refused with.
type Case = (Vec<u8>, u32);

/// Ends the tests where one of the files is not refused with its number.
pub fn compare() {
    // 16 bytes, as many as the header of a program
    let rows = ["10000000001", "00100000000", "00000000000", "01011111111"];
    let table = Matrix::from_texts(&rows);
    let (matrix, program) = (table.encode(), translate(&table).encode());
    let mut of_matrix = short(&matrix, &program, matrix.len());
    let lengths = [4, 7, 8, 13, 14, 15, 16, program.len()];
    of_matrix.extend(cut(&program, lengths, FOREIGN));
    for kind in NO_KINDS.into_iter().chain([16]) {
        of_matrix.extend(cut(&with(&matrix, 9, kind), [4, 7, 8, 9], FOREIGN));
        of_matrix.extend(cut(&with(&matrix, 65_535, kind), [8, 14], FOREIGN));
    }
    refused(&OF_MATRIX, &of_matrix);
    let mut of_program = short(&program, &matrix, 16);
    of_program.extend(cut(&matrix, 4..=matrix.len(), FOREIGN));
    for kind in NO_KINDS.into_iter().chain([32]) {
        let lengths = [4, 7, 8, 13, 14, 15, 16];
        of_program.extend(cut(&with(&program, 16, kind), lengths, FOREIGN));
    }
    refused(&OF_PROGRAM, &of_program);
}

/// The first bytes of a file, of each of these lengths, with the number that they are refused with.
fn cut(file: &[u8], lengths: impl IntoIterator<Item = usize>, number: u32) -> Vec<Case> {
    let lengths = lengths.into_iter();
    lengths
        .map(|length| (file[..length].to_vec(), number))
        .collect()
}

/// Under four bytes of the other sort, and of the right sort fewer bytes than are enough.
fn short(right: &[u8], other: &[u8], enough: usize) -> Vec<Case> {
    [cut(other, 0..4, SHORT), cut(right, 0..enough, SHORT)].concat()
}

/// The file with another length field and another kind.
fn with(file: &[u8], length: u16, kind: u16) -> Vec<u8> {
    [&length.to_le_bytes()[..], &kind.to_le_bytes(), &file[4..]].concat()
}

/// Gives each file to each of the functions.
fn refused(functions: &[(&'static str, Call)], files: &[Case]) {
    for &(name, call) in functions {
        let mut trial = Trial::new(name, 0);
        for (case, (file, number)) in (0..).zip(files) {
            let mut random = trial.begin(case);
            let returned = call(&mut trial, &mut random, file);
            if returned != *number {
                fail(&format!(
                    "{name} returns {returned}, and 02 says {number}: {file:02x?}"
                ));
            }
        }
    }
}
