//! 02, order 8: more than 128 columns. Each limit with its neighbours, numbers that are worked out by hand, and the curve of source
//! document 002 with 192 columns.

use crate::foreign::OF_MATRIX;
use crate::lanes::{draw_on, draw_signed_on, slice_on};
use crate::matrices::{compile_on, read_on, spent_on, walked_on, write_on};
use crate::trial::{fail, must, Trial};
use crate::weights::{build_on, file_of};
use reference::compiler::translate;
use reference::lanes::{LANES, MISS, SIGNED_MISS};
use reference::lent::DONE;
use reference::matrix::Matrix;
use reference::natural::Natural;
use reference::random::{self, Random};
use reference::record::{pack, packed_length};
use reference::tables::document_002_fine;

/// Some columns above 128: the first, others that fill their bytes, and the last two.
const WIDE: [usize; 5] = [129, 136, 160, 191, 192];

/// Columns that are refused: the next, ones of which 8, 16, 32 or 63 bits are within, and the largest.
const WIDER: [usize; 8] = [
    193,
    194,
    255,
    256 + 192,
    65_536 + 192,
    (1 << 32) + 129,
    (1 << 63) + 192,
    usize::MAX,
];

/// Ends the tests where a function answers otherwise than 02 says.
pub fn compare() {
    let random = &mut Random::new(0);
    columns_are_told(random);
    files_are_refused(random);
    sums_are_tried(random);
    shares_are_built(random);
    columns_are_used(random);
    strings_are_sliced(random);
    the_curve_is_drawn(random);
}

/// Ends the tests where what is left is not what is wanted.
fn leaves<T: PartialEq + std::fmt::Debug>(what: &str, wanted: T, left: T) {
    if left != wanted {
        fail(&format!("{what} leaves {left:02x?}, and not {wanted:02x?}"));
    }
}

/// A row of so many columns that is set in this one alone.
fn set_in(column: usize, columns: usize) -> String {
    let (before, after) = ("0".repeat(column), "0".repeat(columns - 1 - column));
    format!("{before}1{after}")
}

/// The file of rows written as texts.
fn rows_of(rows: &[String]) -> Vec<u8> {
    let rows: Vec<&str> = rows.iter().map(String::as_str).collect();
    Matrix::from_texts(&rows).encode()
}

/// The functions that are told their columns: 3 above 192, whatever else there is, and up to 192 what comes after 3.
fn columns_are_told(random: &mut Random) {
    let mut trial = Trial::new("slice, write, build", 0);
    for columns in WIDER {
        for (strings, words) in [(0, 0), (64 * 25, 193)] {
            let (number, _) = slice_on(&mut trial, random, columns, &vec![0; strings], words);
            must(&format!("slice with n = {columns}"), 3, number);
        }
        for (rows, entries) in [(1, &[0; 193][..]), (129, &[2]), (0, &[])] {
            let (number, _) = write_on(&mut trial, random, (rows, columns), entries, 64);
            must(&format!("write with n = {columns}"), 3, number);
        }
        for weights in [&[][..], &[0], &[1, 2]] {
            let (number, _) = build_on(&mut trial, random, weights, columns, true, 4_096);
            must(&format!("build with n = {columns}"), 3, number);
        }
    }
    for columns in WIDE {
        let width = packed_length(columns);
        let (strings, zeros) = (vec![0; 64 * width], vec![0; columns]);
        let file = rows_of(&["0".repeat(columns)]);
        let written = write_on(&mut trial, random, (1, columns), &zeros, 8 + width);
        leaves("write of zeros", (DONE, file), written);
        for (entries, room) in [(columns, 7 + width), (columns - 1, 8 + width)] {
            let answer = write_on(&mut trial, random, (1, columns), &zeros[..entries], room);
            must("write with one less", 13, answer.0);
        }
        for (bytes, words) in [(64 * width, columns - 1), (64 * width - 1, columns)] {
            let answer = slice_on(&mut trial, random, columns, &strings[..bytes], words);
            must("slice with one less", 13, answer.0);
        }
        let (number, _) = write_on(&mut trial, random, (129, columns), &zeros, 4_096);
        must("write of 129 rows", 3, number);
    }
}

/// Headers around 192 columns, whose rows take 24 bytes, with the number that every function returns that takes a matrix file.
const HEADERS: [([u8; 8], usize, u32); 14] = [
    ([33, 0, 16, 0, 1, 0, 193, 0], 25, 2),
    ([33, 0, 32, 0, 1, 0, 193, 0], 24, 1),
    ([33, 0, 32, 0, 1, 0, 192, 0], 24, 1),
    ([33, 0, 32, 0, 1, 0, 193, 0], 25, 3),
    ([32, 0, 32, 0, 1, 0, 193, 0], 24, 3),
    ([33, 0, 32, 0, 129, 0, 193, 0], 25, 3),
    ([32, 0, 32, 0, 129, 0, 192, 0], 24, 3),
    ([32, 0, 32, 0, 0, 0, 192, 0], 24, 3),
    ([32, 0, 32, 0, 1, 0, 192, 1], 24, 3),
    ([33, 0, 32, 0, 1, 0, 192, 0], 25, 4),
    ([31, 0, 32, 0, 1, 0, 192, 0], 24, 4),
    ([32, 0, 32, 0, 1, 0, 192, 0], 25, 4),
    ([24, 0, 32, 0, 1, 0, 129, 0], 16, 4),
    ([24, 0, 32, 0, 1, 0, 129, 0], 17, 4),
];

/// Gives a file to every function that takes one.
fn refused(random: &mut Random, file: &[u8], number: u32) {
    let mut trial = Trial::new("a matrix file", 0);
    for (name, call) in OF_MATRIX {
        let returned = call(&mut trial, random, file);
        let header = &file[..8];
        must(&format!("{name} of {header:?}.."), number, returned);
    }
}

fn files_are_refused(random: &mut Random) {
    for (header, bytes, number) in HEADERS {
        let file = [&header[..], &vec![0; bytes]].concat();
        refused(random, &file, number);
    }
    for columns in [193, 200, 256, 448] {
        refused(
            random,
            &file_of(1, columns, &vec![0; columns.div_ceil(8)]),
            3,
        );
    }
    // A spare bit, the highest and the lowest that there is: 5 before 6, and after 4.
    for (columns, spare) in [(129, 0x40), (129, 0x01), (191, 0x01), (185, 0x40)] {
        let ones = "1".repeat(columns);
        let mut file = rows_of(&[ones.clone(), ones]);
        refused(random, &file, 6);
        *file.last_mut().expect("a file has bytes") |= spare;
        refused(random, &file, 5);
        file.push(0);
        refused(random, &file, 4);
    }
}

/// T = 2^n is read, and one more is 6.
fn sums_are_tried(random: &mut Random) {
    let mut trial = Trial::new("read, write", 0);
    for columns in [63, 64, 65, 127, 128, 129, 191, 192] {
        let (half, one) = (set_in(0, columns), set_in(columns - 1, columns));
        for pair in [
            [half.clone(), half.clone()],
            [one.clone(), "1".repeat(columns)],
        ] {
            let (file, above) = (rows_of(&pair), [&pair[..], &[one.clone()]].concat());
            let number = read_on(&mut trial, random, &file, 2 * columns);
            must("read of rows that add up to 2^n", DONE, number);
            let number = read_on(&mut trial, random, &file, 2 * columns - 1);
            must("read with an entry less", 13, number);
            refused(random, &rows_of(&above), 6);
            let entries: Vec<u8> = above.concat().bytes().map(|digit| digit - b'0').collect();
            let (number, _) = write_on(&mut trial, random, (3, columns), &entries, 4_096);
            must("write of rows that add up to 2^n + 1", 6, number);
            let two = &entries[..2 * columns];
            let written = write_on(&mut trial, random, (2, columns), two, file.len());
            leaves("write of rows that add up to 2^n", (DONE, file), written);
        }
    }
}

/// 1/3 is 0.0101.. in binary, 2/3 0.1010.., and for signed use 1/5 is 0.00110011.. and 4/5 0.11001100..; a row is the first n digits.
fn shares_are_built(random: &mut Random) {
    let mut trial = Trial::new("build", 0);
    for columns in 129..=192 {
        for (is_signed, digits) in [(false, ["01", "10", "0"]), (true, ["0011", "1100", "0"])] {
            let rows = digits.map(|digits| digits.repeat(columns)[..columns].to_string());
            let (file, list) = (rows_of(&rows), &[1, 2, 0]);
            let short = build_on(&mut trial, random, list, columns, is_signed, file.len() - 1);
            must("build with a byte less", 13, short.0);
            let built = build_on(&mut trial, random, list, columns, is_signed, file.len());
            leaves(&format!("build with n = {columns}"), (DONE, file), built);
        }
    }
}

/// One row, set in one column: all zeros hit there, and a 1 before misses, as its distance is never 0 again. Of 64 strings each uses as
/// many columns as by itself, and all of them together at most 12,288.
fn columns_are_used(random: &mut Random) {
    let mut trial = Trial::new("walk, spent", 0);
    let (zeros, mut lost) = (vec![0x00; 24], vec![0x00; 24]);
    lost[0] = 0x80;
    for column in [1, 63, 64, 127, 128, 190, 191] {
        let file = rows_of(&[set_in(column, 192)]);
        let hit = walked_on(&mut trial, random, &file, &zeros);
        leaves("a walk that hits", (DONE, 0, column + 1), hit);
        let missed = walked_on(&mut trial, random, &file, &lost);
        leaves("a walk that misses", (DONE, MISS.into(), 192), missed);
        for lanes in [0, 1, 32, 64] {
            let strings = [lost.repeat(lanes), zeros.repeat(64 - lanes)].concat();
            let total = 192 * lanes + (column + 1) * (64 - lanes);
            let spent = spent_on(&mut trial, random, &file, &strings);
            leaves("spent", (DONE, total), spent);
        }
        let (number, _) = spent_on(&mut trial, random, &file, &zeros.repeat(64)[1..]);
        must("spent with a byte less", 13, number);
    }
}

/// Lane j has a 1 in column 3 j alone, counted around; then a spare bit in each of the strings in turn.
fn strings_are_sliced(random: &mut Random) {
    let mut trial = Trial::new("slice", 0);
    for columns in WIDE {
        let width = packed_length(columns);
        let (mut strings, mut words) = (vec![0; 64 * width], vec![0u64; columns]);
        for lane in 0..LANES {
            let column = 3 * lane % columns;
            strings[lane * width + column / 8] = 0x80 >> (column % 8);
            words[column] |= 1 << lane;
        }
        let sliced = slice_on(&mut trial, random, columns, &strings, columns);
        leaves(&format!("slice with n = {columns}"), (DONE, words), sliced);
        for lane in (0..LANES).filter(|_| columns % 8 != 0) {
            let mut spare = strings.clone();
            spare[lane * width + width - 1] |= 1;
            let (number, _) = slice_on(&mut trial, random, columns, &spare, columns);
            must("slice of a spare bit", 5, number);
        }
    }
}

/// Source document 002's curve with 192 columns: read, and compiled, with just enough room and with one less.
fn the_curve_is_drawn(random: &mut Random) {
    let mut trial = Trial::new("read, compile, draw ..", 0);
    let (table, file) = (document_002_fine(), document_002_fine().encode());
    for (entries, number) in [(19_199, 13), (19_200, DONE)] {
        let returned = read_on(&mut trial, random, &file, entries);
        must("read of the curve", number, returned);
    }
    let room = translate(&table).length();
    let (number, _) = compile_on(&mut trial, random, &file, room - 1);
    must("compile with a byte less", 13, number);
    let (number, program) = compile_on(&mut trial, random, &file, room);
    must("compile of the curve", DONE, number);
    misses_are_drawn(&mut trial, random, &table, &program);
    batches_are_drawn(&mut trial, random, &table, &program);
}

/// T is 2^192 - 50: the 50 last strings miss, and use all columns.
fn misses_are_drawn(trial: &mut Trial, random: &mut Random, table: &Matrix, program: &[u8]) {
    let file = table.encode();
    let missing = |lane: u64| Natural::power_of_two(192).minus(&Natural::from(1 + lane % 50));
    let misses: Vec<u8> = (0..64)
        .flat_map(|lane| pack(&missing(lane).bits(192)))
        .collect();
    for string in misses.chunks(24) {
        let walked = walked_on(trial, random, &file, string);
        leaves("a walk that misses", (DONE, MISS.into(), 192), walked);
    }
    let plain = draw_on(trial, random, program, &misses, LANES);
    leaves("draw of misses", (DONE, vec![MISS; LANES]), plain);
    let signed = draw_signed_on(trial, random, program, &misses, u64::MAX, LANES);
    let wanted = (DONE, vec![SIGNED_MISS; LANES]);
    leaves("draw_signed of misses", wanted, signed);
    let total = spent_on(trial, random, &file, &misses);
    leaves("spent on misses", (DONE, 12_288), total);
}

/// Any strings, and ones that hit late, are drawn as the reference draws them. That each row is drawn from its string is tried with those
/// of other tables (`wanted`).
fn batches_are_drawn(trial: &mut Trial, random: &mut Random, table: &Matrix, program: &[u8]) {
    let file = table.encode();
    for batch in 0..40 {
        let strings = match batch % 2 {
            0 => random::packed_strings(random, 192, LANES),
            _ => random::strings(random, table),
        };
        let sign = random.word();
        let (number, _) = draw_on(trial, random, program, &strings, LANES);
        must("draw", DONE, number);
        let (number, _) = draw_signed_on(trial, random, program, &strings, sign, LANES);
        must("draw_signed", DONE, number);
        let (number, _) = spent_on(trial, random, &file, &strings);
        must("spent", DONE, number);
    }
}
