//! 02, order 3, "Foreign file or short file": with four bytes present, the kind of the first record
//! is tried before shortness. The files that the order speaks of, with the numbers that stand
//! there; each of a header's checks with the next; and that no other 1 or 2 of a header changes.

mod refused;

use reference::compiler::translate;
use reference::draws::{draw, draw_signed};
use reference::machine::{resume, start};
use reference::matrix::{check, Matrix};
use reference::program;
use reference::record::put;
use reference::tables::document_004;
use refused::matrix_is_refused;

/// Matrices whose files have 9, 10, 11 and 16 bytes, and more.
fn matrices() -> Vec<Matrix> {
    vec![
        Matrix::from_texts(&["1"]),
        Matrix::from_texts(&["1", "1"]),
        Matrix::from_texts(&["10", "01", "01"]),
        Matrix::from_texts(&["10000000001", "00100000000", "01011111110", "00000000001"]),
        document_004(),
    ]
}

fn matrix_files() -> Vec<Vec<u8>> {
    matrices().iter().map(Matrix::encode).collect()
}

fn program_files() -> Vec<Vec<u8>> {
    let matrices = matrices();
    let programs = matrices.iter().map(|matrix| translate(matrix).encode());
    programs.collect()
}

/// Every operation that takes a program file refuses this one so, with nothing else in order.
#[track_caller]
fn program_is_refused(file: &[u8], number: u32) {
    assert_eq!(program::check(file), Err(number));
    assert_eq!(start(file, &[], 0, 0, 0), Err(number));
    assert_eq!(resume(file, &[], &[], &[], u32::MAX, 0), Err(number));
    assert_eq!(draw(file, &[], 0), Err(number));
    assert_eq!(draw_signed(file, &[], 0, 0), Err(number));
}

#[test]
fn a_cut_program_is_foreign_to_the_matrix_reader() {
    for program in program_files() {
        for length in [4, 7, 8, 15] {
            matrix_is_refused(&program[..length], 2);
        }
        // Any other length, and the whole, too.
        for length in 4..=program.len() {
            assert_eq!(check(&program[..length]), Err(2));
        }
    }
}

#[test]
fn a_cut_matrix_is_foreign_to_the_program_check() {
    for file in matrix_files() {
        for length in 4..=file.len().min(15) {
            program_is_refused(&file[..length], 2);
        }
        program_is_refused(&file, 2);
    }
}

#[test]
fn a_file_under_four_bytes_is_short() {
    for file in matrix_files().into_iter().chain(program_files()) {
        for length in 0..=3 {
            matrix_is_refused(&file[..length], 1);
            program_is_refused(&file[..length], 1);
        }
    }
    // The third byte alone is no kind, whatever it holds.
    for low in 0..=255 {
        matrix_is_refused(&[9, 0, low], 1);
        program_is_refused(&[16, 0, low], 1);
    }
}

#[test]
fn a_short_file_of_the_right_kind_is_short() {
    for file in matrix_files() {
        for length in 4..file.len() {
            matrix_is_refused(&file[..length], 1);
        }
    }
    for program in program_files() {
        for length in 4..=15 {
            program_is_refused(&program[..length], 1);
        }
    }
}

/// Fields of 16 bits, and bytes after them.
fn record(fields: &[usize], bytes: &[u8]) -> Vec<u8> {
    let mut file = Vec::new();
    fields.iter().for_each(|&value| put(&mut file, value));
    file.extend_from_slice(bytes);
    file
}

/// Kinds that no file has: the least ones and the largest, next to a file's, a file's with another
/// high byte (288 is 0x0120, 272 is 0x0110), and a file's with its bytes exchanged.
const NO_KINDS: [usize; 12] = [
    0, 1, 15, 17, 31, 33, 272, 288, 0x1000, 0x2000, 0x2010, 65_535,
];

/// A matrix with four bytes alone, under 8 bytes, shorter than its length field, whole; a program
/// with four bytes alone, under 16 bytes, whole.
#[test]
fn every_other_kind_is_foreign() {
    for kind in NO_KINDS.into_iter().chain([16]) {
        for length in [0, 9, 65_535] {
            matrix_is_refused(&record(&[length, kind], &[]), 2);
            matrix_is_refused(&record(&[length, kind, 1], &[1]), 2);
        }
        for length in [9, 10, 65_535] {
            matrix_is_refused(&record(&[length, kind, 1, 1], &[]), 2);
        }
        matrix_is_refused(&record(&[65_535, kind, 1, 1], &[0x80; 20]), 2);
        matrix_is_refused(&record(&[9, kind, 1, 1], &[0x80]), 2);
    }
    for kind in NO_KINDS.into_iter().chain([32]) {
        for length in [0, 16, 65_535] {
            program_is_refused(&record(&[length, kind], &[]), 2);
            program_is_refused(&record(&[length, kind, 1, 1, 1, 1, 0], &[0]), 2);
            program_is_refused(&record(&[length, kind, 1, 1, 1, 1, 0, 0], &[]), 2);
        }
    }
}

/// Each check of a matrix's header with the next one, and with all of them.
#[test]
fn checks_of_a_matrix_header_come_in_their_order() {
    // 1 for under four bytes before 2.
    matrix_is_refused(&record(&[9, 16], &[])[..3], 1);
    // 2 before 1 for under 8 bytes, and for fewer than the length field says.
    matrix_is_refused(&record(&[9, 16], &[]), 2);
    matrix_is_refused(&record(&[9, 16, 0], &[0]), 2);
    matrix_is_refused(&record(&[9, 16, 1, 1], &[]), 2);
    matrix_is_refused(&record(&[65_535, 16, 0, 193], &[0xff; 12]), 2);
    // 1 before 3.
    matrix_is_refused(&record(&[9, 32, 0], &[]), 1);
    matrix_is_refused(&record(&[9, 32, 129], &[0]), 1);
    matrix_is_refused(&record(&[9, 32, 0, 193], &[]), 1);
    matrix_is_refused(&record(&[65_535, 32, 0, 193], &[0xff; 12]), 1);
    // 2 before 3, with nothing short.
    matrix_is_refused(&record(&[9, 16, 0, 193], &[0xff]), 2);
    // 3 before 4.
    matrix_is_refused(&record(&[8, 32, 0, 1], &[0xff]), 3);
    matrix_is_refused(&record(&[8, 32, 1, 193], &[0xff]), 3);
    matrix_is_refused(&record(&[8, 32, 1, 1], &[0xff]), 4);
    matrix_is_refused(&record(&[8, 32, 1, 192], &[0xff]), 4);
}

/// Each check of a program's header with the next one, and with all of them.
#[test]
fn checks_of_a_program_header_come_in_their_order() {
    // 1 for under four bytes before 2.
    program_is_refused(&record(&[16, 32], &[])[..3], 1);
    // 2 before 1 for under 16 bytes.
    program_is_refused(&record(&[16, 32], &[]), 2);
    program_is_refused(&record(&[16, 32, 1, 1, 1, 1, 0], &[0]), 2);
    program_is_refused(&record(&[15, 32, 0, 193, 9, 129, 0], &[0]), 2);
    // 1 before 4 and 3.
    program_is_refused(&record(&[15, 16, 1], &[]), 1);
    program_is_refused(&record(&[15, 16, 1, 1, 1, 1, 0], &[0]), 1);
    program_is_refused(&record(&[16, 16, 1_025, 193, 9, 0, 0], &[0]), 1);
    program_is_refused(&record(&[15, 16, 0, 193, 9, 129, 0], &[0xff]), 1);
    // 2 before 4 and 3, with nothing short.
    program_is_refused(&record(&[15, 32, 0, 193, 9, 129, 0, 65_535], &[]), 2);
    // 4 before 3, which 02, order 10 says of a program's header alone.
    program_is_refused(&record(&[15, 16, 1, 1, 1, 1, 0, 0], &[]), 4);
    program_is_refused(&record(&[15, 16, 0, 1, 1, 1, 0, 0], &[]), 4);
    program_is_refused(&record(&[15, 16, 0, 193, 9, 129, 0, 65_535], &[]), 4);
    program_is_refused(&record(&[16, 16, 0, 1, 1, 1, 0, 0], &[]), 3);
    program_is_refused(&record(&[16, 16, 1, 193, 1, 1, 0, 0], &[]), 3);
    program_is_refused(&record(&[16, 16, 1, 1, 9, 1, 0, 0], &[]), 3);
    program_is_refused(&record(&[16, 16, 1, 1, 1, 1, 0, 5], &[]), 3);
}

/// An instruction is no first record: of one that is cut and has no kind, 1 comes before 7.
#[test]
fn an_instruction_is_tried_for_shortness_first() {
    let one = |instruction: &[u8]| record(&[16, 16, 1, 1, 1, 1, 1, 0], instruction);
    program_is_refused(&one(&[6, 0, 8]), 1);
    program_is_refused(&one(&[6, 0, 8, 0]), 1);
    program_is_refused(&one(&[6, 0, 8, 0, 0]), 1);
    program_is_refused(&one(&[6, 0, 8, 0, 0, 0]), 7);
}

fn field(file: &[u8], at: usize) -> usize {
    usize::from(file[at]) + 256 * usize::from(file[at + 1])
}

/// A sort of file: its kind, where 01 calls it too short, and what its reader refuses.
struct Sort {
    kind: usize,
    is_short: fn(&[u8]) -> bool,
    refusal: fn(&[u8]) -> Option<u32>,
}

const MATRIX: Sort = Sort {
    kind: 32,
    is_short: |file| file.len() < 8 || file.len() < field(file, 0),
    refusal: |file| check(file).err(),
};

const PROGRAM: Sort = Sort {
    kind: 16,
    is_short: |file| file.len() < 16,
    refusal: |file| program::check(file).err(),
};

impl Sort {
    /// The first two checks of 01's table, in ascending order: where one of them refuses, which.
    fn first_by_01(&self, file: &[u8]) -> Option<u32> {
        if (self.is_short)(file) {
            return Some(1);
        }
        (field(file, 2) != self.kind).then_some(2)
    }

    /// The same of the reader. An instruction has a 1 of its own, but the files below count none.
    fn first(&self, file: &[u8]) -> Option<u32> {
        (self.refusal)(file).filter(|&number| number <= 2)
    }

    /// 02: "files of four or more bytes with a wrong kind that are also short".
    fn changes(&self, file: &[u8]) -> bool {
        file.len() >= 4 && field(file, 2) != self.kind && (self.is_short)(file)
    }

    /// Compares 01 with the reader. Answers how many files change, and how many stay at 1, at 2
    /// and with neither.
    fn only_these_change(&self, files: Vec<Vec<u8>>) -> [usize; 4] {
        let mut met = [0; 4];
        for file in files {
            let (old, new) = (self.first_by_01(&file), self.first(&file));
            let (expected, group) = match old {
                _ if self.changes(&file) => ((Some(1), Some(2)), 0),
                Some(1) => ((Some(1), Some(1)), 1),
                Some(_) => ((Some(2), Some(2)), 2),
                None => ((None, None), 3),
            };
            assert_eq!((old, new), expected, "kind {}: {file:02x?}", self.kind);
            met[group] += 1;
        }
        met
    }
}

/// The first 40 bytes of a matrix, of a program, and of no file, with 0 where a program counts its
/// instructions.
fn beginnings() -> [Vec<u8>; 4] {
    let (matrix, program) = (document_004().encode(), program_files().remove(0));
    [matrix, program, vec![0x00; 40], vec![0xff; 40]].map(|mut file| {
        file.truncate(40);
        file[12..16].fill(0);
        file
    })
}

/// Each of them with some kinds and many length fields, cut to every length.
fn cut_files() -> Vec<Vec<u8>> {
    let mut files = Vec::new();
    for beginning in beginnings() {
        for kind in NO_KINDS.into_iter().chain([16, 32]) {
            for length in (0..=41).chain([255, 256, 65_535]) {
                let file = record(&[length, kind], &beginning[4..]);
                files.extend((0..=40).map(|end| file[..end].to_vec()));
            }
        }
    }
    files
}

/// 14 kinds, 45 length fields, 4 beginnings and 41 lengths. Of length fields and lengths 180 pairs
/// have under four bytes; of the others, a matrix is short in 840 pairs and not in 825, and a
/// program in 540 and not in 1,125.
#[test]
fn only_foreign_short_files_change() {
    let matrices = [13 * 4 * 840, 14 * 4 * 180 + 4 * 840, 13 * 4 * 825, 4 * 825];
    assert_eq!(MATRIX.only_these_change(cut_files()), matrices);
    let programs = [
        13 * 4 * 540,
        14 * 4 * 180 + 4 * 540,
        13 * 4 * 1_125,
        4 * 1_125,
    ];
    assert_eq!(PROGRAM.only_these_change(cut_files()), programs);
}

/// All kinds that there are, at the lengths next to a limit: under four bytes, short in four ways,
/// and whole.
#[test]
fn only_foreign_short_files_change_whatever_their_kind() {
    for sort in [MATRIX, PROGRAM] {
        let files = (0..=65_535).flat_map(|kind| {
            let whole = record(&[16, kind, 1, 1, 1, 1, 0, 0], &[]);
            [3, 4, 7, 8, 15, 16].map(|length| whole[..length].to_vec())
        });
        let met = [4 * 65_535, 65_536 + 4, 65_535, 1];
        assert_eq!(sort.only_these_change(files.collect()), met);
    }
}
