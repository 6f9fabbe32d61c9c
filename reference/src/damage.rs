//! Damaged files: edits that break one rule of 01's table, or, two at a time, two rules. And entries
//! that break the rule of 02 on signed samples.

use crate::matrix::MATRIX_HEADER;
use crate::program::PROGRAM_HEADER;
use crate::record::field;

/// Entries that are no signed sample: next to the smallest and the largest, two whose low 8 bits are
/// one, next to the miss, its opposite, and the least of all.
pub const NO_SAMPLES: [i16; 7] = [-128, 128, 255, -255, 32_766, -32_767, -32_768];

/// One edit of a file.
#[derive(Clone, Debug, PartialEq, Eq)]
pub enum Edit {
    /// Sets the 16-bit field at a byte.
    Field { at: usize, value: u16 },
    /// Turns one bit over.
    Bit { at: usize, bit: u8 },
    /// Leaves only so many bytes.
    Cut(usize),
    /// Adds bytes at the end.
    More(Vec<u8>),
    /// Takes bytes out.
    Remove { at: usize, length: usize },
}

impl Edit {
    /// Carries the edit out, as far as the bytes that it speaks of are there.
    pub fn apply(&self, file: &mut Vec<u8>) {
        match self {
            Edit::Field { at, value } if at + 2 <= file.len() => {
                file[*at..at + 2].copy_from_slice(&value.to_le_bytes());
            }
            Edit::Bit { at, bit } if *at < file.len() => file[*at] ^= 1 << bit,
            Edit::Cut(length) => file.truncate(*length),
            Edit::More(bytes) => file.extend_from_slice(bytes),
            Edit::Remove { at, length } if at + length <= file.len() => {
                file.drain(*at..at + length);
            }
            _ => {}
        }
    }
}

/// The file after these edits, in their order.
pub fn edited(file: &[u8], edits: &[Edit]) -> Vec<u8> {
    let mut file = file.to_vec();
    edits.iter().for_each(|edit| edit.apply(&mut file));
    file
}

/// The 16-bit field at a byte, set to values around what it holds and around the limits given.
fn field_edits(file: &[u8], at: usize, limits: &[u16]) -> Vec<Edit> {
    let held = field(file, at) as u16;
    let mut values = vec![
        0,
        1,
        held.wrapping_sub(1),
        held.wrapping_add(1),
        held ^ 256,
        65_535,
    ];
    values.extend_from_slice(limits);
    values.sort_unstable();
    values.dedup();
    let changed = values.into_iter().filter(|&value| value != held);
    changed.map(|value| Edit::Field { at, value }).collect()
}

/// Every length shorter than the file's.
pub fn cuts(file: &[u8]) -> Vec<Edit> {
    (0..file.len()).map(Edit::Cut).collect()
}

/// Every bit of the file turned over.
pub fn turned_bits(file: &[u8]) -> Vec<Edit> {
    let places = (0..file.len()).flat_map(|at| (0..8).map(move |bit| (at, bit)));
    places.map(|(at, bit)| Edit::Bit { at, bit }).collect()
}

/// The field at a byte set to each of these values that it does not hold.
fn set_to(file: &[u8], at: usize, values: &[u16]) -> Vec<Edit> {
    let changed = values
        .iter()
        .filter(|&&value| value != field(file, at) as u16);
    changed.map(|&value| Edit::Field { at, value }).collect()
}

/// Edits of a matrix file's columns next to their limit (02, order 8). They stand apart from those
/// below, so that what was chosen of these stays the same.
pub fn matrix_limit_edits(file: &[u8]) -> Vec<Edit> {
    set_to(file, 6, &[136, 191, 192, 193, 200, 256 + 192])
}

/// Edits of a program file's inputs, and of the higher half of its count, next to their limits (02,
/// order 8). They stand apart likewise.
pub fn program_limit_edits(file: &[u8]) -> Vec<Edit> {
    let mut edits = set_to(file, 6, &[136, 191, 192, 193, 200, 256 + 192]);
    edits.extend(set_to(file, 14, &[4, 5, 256 + 4]));
    edits
}

/// Edits of the header fields of a matrix file, and of its end. 128 is the most rows, and was the
/// most columns.
pub fn matrix_edits(file: &[u8]) -> Vec<Edit> {
    let mut edits = field_edits(file, 0, &[7, 8, 9]);
    edits.extend(field_edits(file, 2, &[16, 31, 33]));
    edits.extend(field_edits(file, 4, &[128, 129]));
    edits.extend(field_edits(file, 6, &[128, 129]));
    edits.extend([Edit::More(vec![0]), Edit::More(vec![0; 9])]);
    edits.extend([3, MATRIX_HEADER - 1, MATRIX_HEADER, file.len() - 1].map(Edit::Cut));
    edits.extend((MATRIX_HEADER..file.len()).map(|at| Edit::Bit { at, bit: 0 }));
    edits
}

/// Edits of a program file: of its header fields, of its end, and of every field of every
/// instruction.
pub fn program_edits(file: &[u8]) -> Vec<Edit> {
    let mut edits = program_header_edits(file);
    edits.extend(instruction_edits(file));
    edits
}

/// Edits of every field of every instruction of a program file.
pub fn instruction_edits(file: &[u8]) -> Vec<Edit> {
    let mut edits = Vec::new();
    let mut at = PROGRAM_HEADER;
    while at < file.len() {
        let length = field(file, at);
        edits.extend(field_edits(file, at, &[3, 4, 6, 8, 10]));
        edits.extend(field_edits(file, at + 2, &[7, 8]));
        for operand in (at + 4..at + length).step_by(2) {
            edits.extend(field_edits(file, operand, &[field(file, 4) as u16]));
        }
        edits.push(Edit::Remove { at, length });
        edits.push(Edit::Cut(at));
        at += length;
    }
    edits
}

/// Edits of the header fields of a program file, and of its end. 14 was the length of a header, 128
/// the most inputs, and twice 65,536 the most instructions.
pub fn program_header_edits(file: &[u8]) -> Vec<Edit> {
    let mut edits = field_edits(file, 0, &[14, 15, 17]);
    edits.extend(field_edits(file, 2, &[15, 17, 32]));
    edits.extend(field_edits(file, 4, &[1_024, 1_025]));
    edits.extend(field_edits(file, 6, &[128, 129]));
    edits.extend(field_edits(file, 8, &[8, 9]));
    edits.extend(field_edits(file, 10, &[128, 129]));
    edits.extend(field_edits(file, 12, &[]));
    edits.extend(field_edits(file, 14, &[2, 3]));
    edits.extend([Edit::More(vec![0]), Edit::More(vec![6, 0, 1, 0, 0, 0])]);
    edits.extend([3, PROGRAM_HEADER - 1, PROGRAM_HEADER, file.len() - 1].map(Edit::Cut));
    edits
}
