//! Fixed cases: 01's "Checked by hand", and the edges of every operation's sizes and checks.

use super::cases::{self, build, check, compile, rewrite, samples, signed_samples, slice};
use super::cases::{draw, draw_signed, read, spent, start, walk, write};
use super::line::Line;
use crate::compiler::{self, VALUE_BIT_CASES};
use crate::matrix::{file_length, Matrix};

/// Sizes around the limit of rows, which was that of columns too, and sizes that a field of 16 bits,
/// or a number of 32, would take for sound ones.
pub const EDGES: [usize; 10] = [
    0,
    1,
    127,
    128,
    129,
    256,
    65_536,
    65_537,
    1 << 32,
    (1 << 32) + 1,
];

/// All of them.
pub fn fixed(put: &mut dyn FnMut(Line)) {
    matrices(put);
    weights(put);
    walks(put);
    bits_spent(put);
    writes(put);
    programs(put);
    slices(put);
    sample_words(put);
    draws(put);
    value_bits(put);
}

/// The matrix file of rows written as texts.
pub fn file_of(texts: &[&str]) -> Vec<u8> {
    Matrix::from_texts(texts).encode()
}

/// The program of rows written as texts.
fn program_of(texts: &[&str]) -> Vec<u8> {
    compiler::translate(&Matrix::from_texts(texts)).encode()
}

/// All the strings of so many bits in turn, one a lane.
pub fn in_turn(bits: usize) -> Vec<u8> {
    (0..64u8).map(|lane| lane << (8 - bits)).collect()
}

/// A file with this header, whatever it says, and bytes of 0 after it.
pub fn file_with(length: u16, kind: u16, rows: u16, columns: u16, bytes: usize) -> Vec<u8> {
    let fields = [length, kind, rows, columns];
    let mut file: Vec<u8> = fields
        .iter()
        .flat_map(|field| field.to_le_bytes())
        .collect();
    file.resize(file.len() + bytes, 0);
    file
}

fn matrices(put: &mut dyn FnMut(Line)) {
    let three = file_of(&["10", "01", "01"]);
    for entries_lent in [0, 5, 6, 7, 64] {
        put(read(&three, entries_lent));
    }
    put(rewrite(&three));
    let above = file_of(&["10", "10", "01"]);
    put(read(&above, 0));
    put(compile(&above, 0));
    put(walk(&above, &[]));
    for (rows, columns) in [
        (128, 8),
        (129, 8),
        (128, 1),
        (8, 128),
        (8, 129),
        (0, 8),
        (8, 0),
        (1, 1),
    ] {
        let bytes = usize::from(rows) * usize::from(columns).div_ceil(8);
        put(read(
            &file_with(8 + bytes as u16, 32, rows, columns, bytes),
            16_384,
        ));
    }
    // The length field is nonsense, too small, or too large where the bytes are there.
    for (length, bytes) in [
        (65_535, 12),
        (0, 1),
        (8, 1),
        (10, 1),
        (10, 2),
        (9, 2),
        (9, 1),
    ] {
        put(read(&file_with(length, 32, 1, 1, bytes), 1));
    }
    // Two faults at once.
    put(read(&file_with(9, 16, 0, 1, 0), 0));
    put(read(&file_with(9, 16, 0, 1, 1), 0));
    put(read(&file_with(8, 32, 0, 1, 1), 0));
    put(read(&file_with(8, 32, 1, 129, 1), 0));
    // T = 2^n, and T = 2^n + 1, where a sum in 64 or 128 bits would be 0 or 1.
    for columns in [63, 64, 65, 127, 128] {
        totals(columns, 128, put);
    }
}

/// Two rows that add up to 2^n, and a third that is 1, with room for the entries of so many columns.
pub fn totals(columns: usize, room: usize, put: &mut dyn FnMut(Line)) {
    let half = format!("1{}", "0".repeat(columns - 1));
    let one = format!("{}1", "0".repeat(columns - 1));
    put(read(&file_of(&[&half, &half]), 2 * room));
    put(read(&file_of(&[&half, &half, &one]), 3 * room));
    put(rewrite(&file_of(&[&half, &half])));
}

fn weights(put: &mut dyn FnMut(Line)) {
    for signed in [false, true] {
        put(build(&[1, 1, 1], 2, signed, 11));
        put(build(&[5], 3, signed, 9));
        put(build(&[0, 0], 3, signed, 10));
        put(build(&[0, 7, 0], 9, signed, 14));
    }
    for file_lent in [0, 10, 11, 12, 99] {
        put(build(&[1, 1, 1], 2, false, file_lent));
        put(build(&[0, 0, 0], 2, false, file_lent));
    }
    for columns in EDGES {
        put(build(
            &[1, 2, u32::MAX],
            columns,
            false,
            file_length(3, 128),
        ));
        put(build(&[], columns, false, 0));
        put(build(&[0], columns, true, 0));
    }
    put(build(&[u32::MAX; 128], 128, false, file_length(128, 128)));
    put(build(&[u32::MAX; 129], 128, false, file_length(129, 128)));
    put(build(&[0; 129], 128, false, 0));
    put(build(&[u32::MAX, 1], 128, true, 40));
    put(build(&[1, u32::MAX], 64, true, 24));
}

fn walks(put: &mut dyn FnMut(Line)) {
    let three = file_of(&["10", "01", "01"]);
    for string in [0x00, 0x40, 0x80, 0xc0] {
        put(walk(&three, &[string]));
    }
    // A string too short, a longer one, and spare bits, also where the walk would hit before.
    put(walk(&three, &[]));
    put(walk(&three, &[0x80, 0xff]));
    for spare in [0x01, 0x20, 0x3f] {
        put(walk(&three, &[spare]));
    }
    for (row, string) in [
        ("1", 0x00),
        ("1", 0x80),
        ("0", 0x00),
        ("0", 0x80),
        ("1", 0x7f),
    ] {
        put(walk(&file_of(&[row]), &[string]));
    }
    put(walk(&file_of(&["01", "01", "01"]), &[0xc0]));
    put(walk(&file_of(&["111"]), &[0xe0]));
    put(walk(&file_of(&["000000001"]), &[0x00]));
    put(walk(&file_of(&["000000001"]), &[0x00, 0x00]));
    put(walk(&file_of(&["000000001"]), &[0x00, 0x01]));
    put(walk(&file_of(&["000000001"]), &[0x00, 0x80]));
    // A distance that wraps in 64 bits comes back to 0: a lost string would become a hit in the
    // last column.
    for columns in [65, 66, 97, 128] {
        let last = format!("{}1", "0".repeat(columns - 1));
        let mut string = vec![0; columns.div_ceil(8)];
        string[0] = 0x80;
        put(walk(&file_of(&[&last]), &string));
    }
    put(walk(&file_with(9, 16, 1, 1, 0), &[]));
}

/// 02, order 1: the columns that 64 strings use together, each of which can be counted by hand.
fn bits_spent(put: &mut dyn FnMut(Line)) {
    let three = file_of(&["10", "01", "01"]);
    // Strings too short, exact, and longer, with spare bits there that are not tried.
    let longer = [in_turn(2), vec![0xff; 3]].concat();
    for length in [0, 63, 64, 65, 67] {
        put(spent(&three, &longer[..length]));
    }
    for row in ["1", "0", "00", "010"] {
        put(spent(&file_of(&[row]), &in_turn(row.len())));
    }
    // A string unlike the others is counted in every lane, and its spare bits are tried there.
    for lane in [0, 1, 31, 62, 63] {
        let mut unlike = [0x00; 64];
        unlike[lane] = 0x81;
        put(spent(&file_of(&["10000000"]), &unlike));
        put(spent(&three, &unlike));
        unlike[lane] = 0x20;
        put(spent(&three, &unlike));
    }
    // Strings of two bytes; a bit that is spare in the second byte is not in the first.
    let nine = file_of(&["000000001"]);
    for length in [64, 127, 128, 129] {
        put(spent(&nine, &[0x00; 129][..length]));
    }
    for place in [0, 1, 126, 127] {
        let mut strings = [0x00; 128];
        strings[place] = 0x01;
        put(spent(&nine, &strings));
    }
    // Two or three faults at once.
    let above = file_of(&["10", "10", "01"]);
    put(spent(&three, &[0xff; 63]));
    for strings in [&[0xff; 63][..], &[0xff; 64], &in_turn(2)] {
        put(spent(&above, strings));
    }
    put(spent(&file_with(9, 16, 1, 1, 0), &[]));
    distances(put);
}

/// Hits in column 64 of 128, and strings that miss: a distance that wraps in 64 bits would make
/// hits there of them too.
fn distances(put: &mut dyn FnMut(Line)) {
    let late = format!("{}1{}", "0".repeat(64), "0".repeat(63));
    for first in [0x00, 0x80] {
        let mut string = [0x00; 16];
        string[0] = first;
        put(spent(&file_of(&[&late]), &string.repeat(64)));
    }
}

fn writes(put: &mut dyn FnMut(Line)) {
    let entries = [1, 0, 0, 1, 0, 1];
    for (given, file_lent) in [(6, 11), (6, 10), (6, 0), (5, 11), (0, 0)] {
        put(write(3, 2, &entries[..given], file_lent));
    }
    put(write(3, 2, &[1, 0, 0, 1, 0, 1, 2, 255], 20));
    for (at, entry) in [(0, 2), (5, 2), (3, 255), (1, 128)] {
        let mut wrong = entries;
        wrong[at] = entry;
        put(write(3, 2, &wrong, 11));
        put(write(3, 2, &wrong, 0));
        put(write(3, 2, &wrong[..5], 11));
    }
    put(write(3, 2, &[1, 0, 1, 0, 0, 1], 11));
    put(write(3, 2, &[1, 0, 1, 0, 0, 1], 0));
    put(write(3, 2, &[1, 0, 1, 0, 0, 2], 0));
    for size in EDGES {
        put(write(size, 2, &[0; 256], 9));
        put(write(2, size, &[0; 256], 40));
        put(write(size, size, &[2], 0));
    }
    put(write(1 << 63, 2, &[], 0));
    put(write(usize::MAX, usize::MAX, &[0], 0));
}

fn programs(put: &mut dyn FnMut(Line)) {
    let two = file_of(&["1", "1"]);
    let length = program_of(&["1", "1"]).len();
    for program_lent in [0, length - 1, length, length + 1] {
        put(compile(&two, program_lent));
    }
    for texts in [
        vec!["1"],
        vec!["0"],
        vec!["10", "01", "01"],
        vec!["111"],
        vec!["01", "01", "01"],
    ] {
        put(compile(&file_of(&texts), 4_096));
        put(check(&program_of(&texts)));
    }
    put(check(&[]));
    put(check(&two));
    put(read(&program_of(&["1", "1"]), 0));
}

fn slices(put: &mut dyn FnMut(Line)) {
    for columns in EDGES {
        put(slice(columns, &[], 0));
    }
    let strings: Vec<u8> = (0..=255).collect();
    put(slice(8, &strings, 8));
    put(slice(8, &strings, 7));
    put(slice(8, &strings[..63], 8));
    put(slice(8, &strings[..64], 9));
    put(slice(16, &strings[64..192], 16));
    put(slice(25, &[0; 256], 25));
    // A spare bit in each of some strings, with and without room for the words; bytes after the 64
    // strings are not tried.
    for lane in [0, 1, 31, 62, 63] {
        let mut spare = [0x80; 64];
        spare[lane] = 0x81;
        put(slice(7, &spare, 7));
        put(slice(7, &spare, 0));
        put(slice(8, &spare, 8));
    }
    let mut after = [0x80; 65];
    after[64] = 0xff;
    put(slice(1, &after, 1));
    put(slice(1, &after, 0));
}

fn sample_words(put: &mut dyn FnMut(Line)) {
    for outputs in 0..=9 {
        let words: Vec<u64> = (0..outputs).map(|i| u64::MAX << i).collect();
        // The most rows that the words suit; no words, and nine, suit none.
        let rows = 1 << (outputs.clamp(1, 8) - 1);
        put(samples(rows, &words, 64));
        put(signed_samples(rows, &words, 0xffff_0000_ff00_f0a5, 64));
        put(samples(rows, &words, 63));
        put(signed_samples(rows, &words, 0, 63));
    }
    // Zero, a miss, and the largest number, each with its sign bit set and not.
    let words = [
        0b1101_1011,
        0b1001_0001,
        0b1001_0001,
        0b1001_0001,
        0b1001_0001,
        0b1001_0001,
        0b1001_0001,
        0b1001_0001,
    ];
    put(samples(128, &words, 65));
    put(signed_samples(128, &words, 0b1111_0000, 65));
}

fn draws(put: &mut dyn FnMut(Line)) {
    let program = program_of(&["10", "01", "01"]);
    let strings = in_turn(2);
    put(draw(&program, &strings, 64));
    put(draw_signed(&program, &strings, 0xaaaa_aaaa_5555_5555, 64));
    let mut spare = strings.clone();
    spare[63] |= 0x20;
    for (given, samples_lent) in [
        (&strings[..63], 64),
        (&strings[..], 63),
        (&spare[..], 64),
        (&spare[..], 0),
    ] {
        put(draw(&program, given, samples_lent));
        put(draw_signed(&program, given, u64::MAX, samples_lent));
    }
    put(draw(&spare, &strings, 64));
    put(draw(&program[..program.len() - 1], &[], 0));
    put(start(&program, &[0xff, 0xf0f0], 14, 3, u32::MAX));
}

/// 02, order 6: the fewest and the most rows of each case, once each. Every row is set in the last
/// of 7 columns alone: so the string that spells s hits row m - 1 - s, if there is one, and the
/// program marks all rows.
fn value_bits(put: &mut dyn FnMut(Line)) {
    let mut ends: Vec<usize> = VALUE_BIT_CASES
        .iter()
        .flat_map(|case| [case.0, case.1])
        .collect();
    ends.dedup();
    for rows in ends {
        let texts = vec!["0000001"; rows];
        let file = file_of(&texts);
        put(compile(&file, program_of(&texts).len()));
        put(cases::draws(&file, &in_turn(7), 0xaaaa_aaaa_5555_5555));
    }
}
