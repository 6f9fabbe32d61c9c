//! The edges of every operation: sizes at their limits, buffers one short, and the order of the
//! checks.

use reference::compiler::{compile, translate};
use reference::cumulative::{export, import, lookup};
use reference::draws::{draw, draw_signed};
use reference::extremes::with_program_length;
use reference::lanes::{samples, signed_samples, slice};
use reference::listing::{lister, MOST_LISTED};
use reference::machine::{resume, start};
use reference::matrix::{check, read, write, Matrix};
use reference::pool;
use reference::pools::Pool;
use reference::program;
use reference::random::{self, Random};
use reference::record::put;
use reference::refusal::Answer;
use reference::walk::{spent, walk, Walked};
use reference::wanted::string_for;
use reference::weights::build;
use reference::wide::combine;
use std::collections::BTreeMap;

fn file_of(rows: &[&str]) -> Vec<u8> {
    Matrix::from_texts(rows).encode()
}

fn hit(row: usize, used: usize) -> Answer<Walked> {
    let row = Some(row);
    Ok(Walked { row, used })
}

fn miss(used: usize) -> Answer<Walked> {
    Ok(Walked { row: None, used })
}

/// A matrix file with this header and these bytes after it.
fn raw(length: usize, kind: usize, rows: usize, columns: usize, bytes: &[u8]) -> Vec<u8> {
    let mut file = Vec::new();
    for value in [length, kind, rows, columns] {
        put(&mut file, value);
    }
    file.extend_from_slice(bytes);
    file
}

/// A program file of one input, one output and one row, with these bytes after its header.
fn code(registers: usize, count: u32, bytes: &[u8]) -> Vec<u8> {
    let mut file = Vec::new();
    for value in [16, 16, registers, 1, 1, 1] {
        put(&mut file, value);
    }
    file.extend_from_slice(&count.to_le_bytes());
    file.extend_from_slice(bytes);
    file
}

const ONES_0: [u8; 6] = [6, 0, 1, 0, 0, 0];
const OUTPUT_0_0: [u8; 8] = [8, 0, 7, 0, 0, 0, 0, 0];

/// In ascending order, but for 2, which comes before 1 where four bytes are there (02, order 3).
#[test]
fn matrix_checks_come_in_their_order() {
    assert_eq!(check(&[]), Err(1));
    assert_eq!(check(&raw(9, 16, 0, 0, &[])[..3]), Err(1));
    assert_eq!(check(&raw(9, 16, 0, 0, &[])[..7]), Err(2));
    assert_eq!(check(&raw(9, 16, 0, 0, &[])), Err(2));
    assert_eq!(check(&raw(9, 16, 0, 0, &[1])), Err(2));
    assert_eq!(check(&raw(0, 33, 1, 1, &[])), Err(2));
    assert_eq!(check(&raw(9, 32, 1, 1, &[])[..7]), Err(1));
    assert_eq!(check(&raw(9, 32, 0, 0, &[])), Err(1));
    assert_eq!(check(&raw(65_535, 32, 1, 1, &[0; 12])), Err(1));
    assert_eq!(check(&raw(9, 32, 0, 1, &[1])), Err(3));
    assert_eq!(check(&raw(9, 32, 129, 1, &[1])), Err(3));
    assert_eq!(check(&raw(9, 32, 1, 193, &[1])), Err(3));
    assert_eq!(check(&raw(9, 32, 129, 193, &[1])), Err(3));
    assert_eq!(check(&raw(9, 32, 1, 257, &[1])), Err(3));
    assert_eq!(check(&raw(9, 32, 1, 192, &[1])), Err(4));
    assert_eq!(check(&raw(8, 32, 1, 1, &[1])), Err(4));
    assert_eq!(check(&raw(10, 32, 1, 1, &[1, 1])), Err(4));
    assert_eq!(check(&raw(9, 32, 1, 1, &[1, 1])), Err(4));
    assert_eq!(check(&raw(10, 32, 2, 2, &[0xc0, 0xc1])), Err(5));
    assert_eq!(check(&raw(10, 32, 2, 2, &[0xc1, 0xc0])), Err(5));
    assert_eq!(check(&raw(10, 32, 2, 2, &[0xc0, 0xc0])), Err(6));
    assert_eq!(check(&raw(10, 32, 2, 2, &[0xc0, 0x40])), Ok((2, 2)));
}

#[test]
fn a_total_of_exactly_two_to_the_n_is_accepted() {
    for columns in [1, 2, 63, 64, 65, 127, 128, 129, 191, 192] {
        let half = format!("1{}", "0".repeat(columns - 1));
        let one = format!("{}1", "0".repeat(columns - 1));
        assert_eq!(check(&file_of(&[&half, &half])), Ok((2, columns)));
        assert_eq!(check(&file_of(&[&half, &half, &one])), Err(6));
        let full = "1".repeat(columns);
        assert_eq!(check(&file_of(&[&full, &one])), Ok((2, columns)));
        assert_eq!(check(&file_of(&[&full, &one, &one])), Err(6));
    }
    for columns in [128, 192] {
        let full = "1".repeat(columns);
        assert_eq!(check(&file_of(&[full.as_str(); 128])), Err(6));
    }
}

#[test]
fn read_needs_room_for_the_entries() {
    let file = file_of(&["10", "01", "01"]);
    assert_eq!(read(&file, 5), Err(13));
    assert_eq!(read(&file, 6).unwrap().entries, [1, 0, 0, 1, 0, 1]);
    assert_eq!(read(&file, 600).unwrap().entries.len(), 6);
    assert_eq!(read(&file_of(&["1", "1", "1"]), 0), Err(6));
}

#[test]
fn write_tries_sizes_entries_bits_total_and_room() {
    assert_eq!(write(0, 1, &[], 0), Err(3));
    assert_eq!(write(1, 193, &[], 0), Err(3));
    assert_eq!(write(129, 193, &[], 0), Err(3));
    assert_eq!(write(1, 192, &[], 0), Err(13));
    assert_eq!(write(65_536 + 1, 1, &[2], 0), Err(3));
    assert_eq!(write(1, (1 << 32) + 1, &[2], 0), Err(3));
    assert_eq!(write(usize::MAX, usize::MAX, &[2], 0), Err(3));
    assert_eq!(write(2, 2, &[2, 1, 1], 0), Err(13));
    assert_eq!(write(2, 2, &[1, 1, 1, 2], 0), Err(5));
    assert_eq!(write(2, 2, &[1, 1, 1, 255], 10), Err(5));
    assert_eq!(write(2, 2, &[1, 1, 1, 0], 0), Err(6));
    assert_eq!(write(2, 2, &[1, 1, 0, 1], 9), Err(13));
    assert_eq!(
        write(2, 2, &[1, 1, 0, 1], 10),
        Ok(raw(10, 32, 2, 2, &[0xc0, 0x40]))
    );
    assert_eq!(
        write(2, 2, &[1, 1, 0, 1, 9, 9], 99),
        Ok(raw(10, 32, 2, 2, &[0xc0, 0x40]))
    );
    assert_eq!(write(128, 128, &[0; 16_384], 2_055), Err(13));
    assert_eq!(write(128, 128, &[0; 16_384], 2_056).unwrap().len(), 2_056);
    assert_eq!(write(128, 192, &[0; 24_575], 3_080), Err(13));
    assert_eq!(write(128, 192, &[0; 24_576], 3_079), Err(13));
    assert_eq!(write(128, 192, &[0; 24_576], 3_080).unwrap().len(), 3_080);
}

/// 3, then 11, then 13, for either use: each alone and with all that come after it.
#[test]
fn build_tries_sizes_sum_and_room() {
    for signed in [false, true] {
        for (number, columns) in [
            (0, 1),
            (129, 1),
            (1, 0),
            (1, 193),
            (1, 65_536 + 1),
            (1, (1 << 32) + 1),
            (0, 0),
            (129, 193),
            (129, 192),
        ] {
            for weight in [0, 1] {
                for file_lent in [0, usize::MAX] {
                    let weights = vec![weight; number];
                    assert_eq!(build(&weights, columns, signed, file_lent), Err(3));
                }
            }
        }
        for number in [1, 2, 3, 128] {
            for file_lent in [0, 8 + 24 * number - 1, 8 + 24 * number, usize::MAX] {
                for columns in [128, 192] {
                    let answer = build(&vec![0; number], columns, signed, file_lent);
                    assert_eq!(answer, Err(11));
                }
            }
        }
        assert_eq!(build(&[1], 1, signed, 8), Err(13));
        assert_eq!(build(&[1], 1, signed, 9), Ok(file_of(&["1"])));
        assert_eq!(build(&[0, 1], 1, signed, 9), Err(13));
        assert_eq!(build(&[0, 1], 1, signed, 10), Ok(file_of(&["0", "1"])));
    }
    let built = build(&[u32::MAX; 128], 128, false, 2_056).unwrap();
    assert_eq!(check(&built), Ok((128, 128)));
    assert_eq!(
        &built[8..24],
        [2, 0, 0, 0, 0, 0, 0, 0, 0, 0, 0, 0, 0, 0, 0, 0]
    );
}

/// A file is as long as weights and columns say, for either use: one byte less is too short, and
/// what is lent beyond is left alone.
#[test]
fn build_needs_room_for_the_whole_file() {
    let room_is_right = |weights: &[u32], columns: usize, signed: bool, length: usize| {
        let exact = build(weights, columns, signed, length).unwrap();
        assert_eq!(exact.len(), length);
        for file_lent in [0, 8, length - 1] {
            assert_eq!(build(weights, columns, signed, file_lent), Err(13));
        }
        for file_lent in [length + 1, usize::MAX] {
            let longer = build(weights, columns, signed, file_lent);
            assert_eq!(longer.as_ref(), Ok(&exact));
        }
    };
    for (number, columns, length) in [
        (1, 1, 9),
        (1, 8, 9),
        (1, 9, 10),
        (3, 2, 11),
        (2, 128, 40),
        (2, 129, 42),
        (1, 136, 25),
        (1, 191, 32),
        (2, 192, 56),
        (128, 7, 136),
        (128, 128, 2_056),
        (128, 192, 3_080),
    ] {
        for signed in [false, true] {
            for weight in [1, 1 << 31, u32::MAX] {
                room_is_right(&vec![weight; number], columns, signed, length);
            }
        }
    }
}

/// Lists and columns within their limits and outside, with and without a weight above 0, and room
/// that is short, exact or more: the use decides nothing but the rows.
#[test]
fn both_uses_are_refused_alike() {
    let mut random = Random::new(28);
    let mut met = BTreeMap::new();
    for _ in 0..4_000 {
        let (number, columns) = random::sizes(&mut random);
        let number = random.pick(&[number, number, number, number, 0, 129]);
        let columns = random.pick(&[columns, columns, columns, columns, 0, 193]);
        let mut weights = random::weights(&mut random, number);
        if random.once_in(3) {
            weights.fill(0);
        }
        let exact = 8 + number * columns.div_ceil(8);
        let file_lent = exact + random.pick(&[0, 1, 1, 2]) - 1;
        let of = |signed: bool| build(&weights, columns, signed, file_lent).map(|file| file.len());
        assert_eq!(of(false), of(true));
        *met.entry(of(true).map_or_else(|number| number, |_| 0))
            .or_insert(0) += 1;
    }
    let numbers: Vec<u32> = met.keys().copied().collect();
    assert_eq!(numbers, [0, 3, 11, 13]);
    assert!(met.values().all(|&often| often > 200), "{met:?}");
}

/// 2^n / 3 is 55..55 in hexadecimal and 2^n × 2 / 3 is aa..aa, with 128 columns and with 192; all of
/// S is 2^n - 1. For signed use S is 1 + 2 × 2, 2^n / 5 is 33..33 and 2^n × 4 / 5 is cc..cc.
#[test]
fn quotients_are_exact() {
    for width in [16, 24] {
        for (signed, rows) in [(false, [0x55, 0xaa, 0]), (true, [0x33, 0xcc, 0])] {
            let file = build(&[1, 2, 0], 8 * width, signed, 8 + 3 * width).unwrap();
            assert_eq!(file[8..], rows.map(|byte| vec![byte; width]).concat());
        }
    }
    assert_eq!(
        &build(&[0, 7], 12, false, 12).unwrap()[8..],
        [0, 0, 0xff, 0xf0]
    );
    // 2^8 × 1 / 2^32 is below 1, and 2^8 × (2^32 - 1) / 2^32 is above 255. For signed use S is
    // 2^33 - 1, and of 2^8 less than 1 is missing again.
    for signed in [false, true] {
        let file = build(&[1, u32::MAX], 8, signed, 10).unwrap();
        assert_eq!(&file[8..], [0, 255]);
    }
}

#[test]
fn walk_tries_the_string_after_the_matrix() {
    let file = file_of(&["10", "01", "01"]);
    assert_eq!(walk(&file[..10], &[]), Err(1));
    assert_eq!(walk(&file_of(&["1", "1", "1"]), &[]), Err(6));
    assert_eq!(walk(&file, &[]), Err(13));
    assert_eq!(walk(&file, &[0x01]), Err(5));
    assert_eq!(walk(&file, &[0x20]), Err(5));
    assert_eq!(walk(&file, &[0x80, 0xff]), hit(2, 2));
    let nine = file_of(&["000000001"]);
    assert_eq!(walk(&nine, &[0x00]), Err(13));
    assert_eq!(walk(&nine, &[0x00, 0x7f]), Err(5));
    assert_eq!(walk(&nine, &[0x00, 0x00]), hit(0, 9));
    assert_eq!(walk(&nine, &[0x00, 0x80]), miss(9));
}

#[test]
fn a_distance_does_not_wrap() {
    for columns in [33, 65, 66, 97, 128, 129, 130, 191, 192] {
        let last = format!("{}1", "0".repeat(columns - 1));
        let mut string = vec![0; columns.div_ceil(8)];
        assert_eq!(walk(&file_of(&[&last]), &string), hit(0, columns));
        string[0] = 0x80;
        assert_eq!(walk(&file_of(&[&last]), &string), miss(columns));
    }
    // A distance that wraps in 32, 64 or 128 bits would hit here, and use fewer columns than all.
    for column in [32, 64, 128] {
        let late = format!("{}1{}", "0".repeat(column), "0".repeat(191 - column));
        let (zeros, lost) = ([0x00; 24], [&[0x80][..], &[0x00; 23]].concat());
        assert_eq!(walk(&file_of(&[&late]), &zeros), hit(0, column + 1));
        assert_eq!(walk(&file_of(&[&late]), &lost), miss(192));
        assert_eq!(spent(&file_of(&[&late]), &lost.repeat(64)), Ok(64 * 192));
    }
}

#[test]
fn spent_tries_the_strings_after_the_matrix() {
    // Each refusal of the matrix with the next, and sound strings, short ones, ones with spare bits.
    for strings in [&[0x00; 64][..], &[], &[0xff; 63], &[0xff; 64]] {
        assert_eq!(spent(&raw(9, 16, 1, 1, &[])[..3], strings), Err(1));
        assert_eq!(spent(&raw(9, 16, 1, 1, &[]), strings), Err(2));
        assert_eq!(spent(&raw(9, 16, 0, 1, &[0]), strings), Err(2));
        assert_eq!(spent(&raw(9, 32, 0, 1, &[]), strings), Err(1));
        assert_eq!(spent(&raw(8, 32, 1, 193, &[0]), strings), Err(3));
        assert_eq!(spent(&raw(8, 32, 1, 192, &[0]), strings), Err(4));
        assert_eq!(spent(&raw(8, 32, 1, 1, &[1]), strings), Err(4));
        assert_eq!(spent(&raw(10, 32, 2, 2, &[0xc1, 0xc0]), strings), Err(5));
        assert_eq!(spent(&file_of(&["1", "1", "1"]), strings), Err(6));
    }
    let file = file_of(&["10", "01", "01"]);
    assert_eq!(spent(&file, &[]), Err(13));
    assert_eq!(spent(&file, &[0x00; 63]), Err(13));
    assert_eq!(spent(&file, &[0xff; 63]), Err(13));
    assert_eq!(spent(&file, &[0xff; 64]), Err(5));
}

#[test]
fn spent_tries_every_string() {
    let file = file_of(&["10", "01", "01"]);
    for lane in 0..64 {
        let mut strings = [0x00; 65];
        // What lies after the 64 strings is not tried, and each string counts by itself.
        (strings[lane], strings[64]) = (0xc0, 0xff);
        assert_eq!(spent(&file, &strings), Ok(63 + 2));
        assert_eq!(spent(&file, &strings[..64]), Ok(63 + 2));
        assert_eq!(spent(&file, &strings[..63]), Err(13));
        for spare in [0x01, 0x20] {
            strings[lane] = spare;
            assert_eq!(spent(&file, &strings), Err(5));
        }
    }
}

#[test]
fn strings_of_several_bytes_are_spent() {
    let nine = file_of(&["000000001"]);
    let mut strings = [0x00; 129];
    strings[128] = 0xff;
    assert_eq!(spent(&nine, &strings[..64]), Err(13));
    assert_eq!(spent(&nine, &strings[..127]), Err(13));
    assert_eq!(spent(&nine, &strings[..128]), Ok(64 * 9));
    assert_eq!(spent(&nine, &strings), Ok(64 * 9));
    // The last bit of a first byte is no spare bit, and those of the second byte are.
    strings[126] = 0x01;
    assert_eq!(spent(&nine, &strings), Ok(64 * 9));
    strings[127] = 0x40;
    assert_eq!(spent(&nine, &strings), Err(5));
}

/// The least is one column a string, and the most is all of them.
#[test]
fn spent_has_its_least_and_its_most() {
    for columns in [1, 7, 8, 9, 127, 128, 129, 191, 192] {
        let first = format!("1{}", "0".repeat(columns - 1));
        let zeros = vec![0x00; 64 * columns.div_ceil(8)];
        assert_eq!(spent(&file_of(&[&first]), &zeros), Ok(64));
        let none = file_of(&[&"0".repeat(columns)]);
        assert_eq!(spent(&none, &zeros), Ok(64 * columns));
        assert_eq!(spent(&none, &zeros[1..]), Err(13));
    }
}

#[test]
fn compile_needs_room_for_the_whole_program() {
    let file = file_of(&["1", "1"]);
    assert_eq!(compile(&file, 115), Err(13));
    assert_eq!(compile(&file, 116).unwrap().len(), 116);
    assert_eq!(compile(&file[..9], 0), Err(1));
    assert_eq!(compile(&file_of(&["1", "1", "1"]), 0), Err(6));
}

#[test]
fn program_header_is_tried_first() {
    let sound = code(1, 2, &[&ONES_0[..], &OUTPUT_0_0].concat());
    assert!(program::check(&sound).is_ok());
    let with = |at: usize, value: usize| {
        let mut file = sound.clone();
        file[at..at + 2].copy_from_slice(&(value as u16).to_le_bytes());
        program::check(&file).map(|_| ())
    };
    assert_eq!(program::check(&sound[..15]), Err(1));
    assert_eq!(program::check(&raw(16, 32, 1, 1, &[])), Err(2));
    assert_eq!(with(2, 32), Err(2));
    // With 4 in its higher half, a count of 2 is 262,146.
    for (at, least, most) in [
        (4, 0, 1_025),
        (6, 0, 193),
        (8, 0, 9),
        (10, 0, 129),
        (14, 4, 65_535),
    ] {
        assert_eq!(with(at, least), Err(3));
        assert_eq!(with(at, most), Err(3));
    }
    for inputs in [128, 129, 191, 192] {
        assert_eq!(with(6, inputs), Ok(()));
    }
    for length in [0, 14, 15, 17, 65_535] {
        assert_eq!(with(0, length), Err(4));
    }
    // 262,144 instructions are within the limits and one more is not.
    for within in [131_072, 131_073, 262_144] {
        assert_eq!(program::check(&code(1, within, &[])), Err(1));
    }
    assert_eq!(program::check(&code(1, 262_145, &[])), Err(3));
    // 4 is tried before 3 (02, order 10).
    let mut both = code(0, 0, &[]);
    assert_eq!(program::check(&both), Err(3));
    both[0] = 15;
    assert_eq!(program::check(&both), Err(4));
}

#[test]
fn instructions_are_tried_in_turn() {
    let tried = |count: u32, bytes: &[u8]| program::check(&code(2, count, bytes)).map(|_| ());
    assert_eq!(tried(0, &[]), Err(10));
    assert_eq!(tried(0, &[0]), Err(4));
    assert_eq!(tried(1, &[]), Err(1));
    assert_eq!(tried(1, &[6, 0, 1]), Err(1));
    assert_eq!(tried(1, &[8, 0, 9, 0, 0, 0]), Err(1));
    assert_eq!(tried(1, &[0, 0, 1, 0]), Err(7));
    assert_eq!(tried(1, &[3, 0, 1, 0]), Err(7));
    assert_eq!(tried(1, &[4, 0, 1, 0]), Err(7));
    assert_eq!(tried(1, &[6, 0, 0, 0, 9, 0]), Err(7));
    assert_eq!(tried(1, &[6, 0, 8, 0, 9, 0]), Err(7));
    assert_eq!(tried(1, &[8, 0, 1, 0, 9, 0, 0, 0]), Err(7));
    assert_eq!(tried(1, &[6, 0, 1, 0, 2, 0]), Err(8));
    assert_eq!(tried(1, &[8, 0, 3, 0, 0, 0, 1, 0]), Err(8));
    assert_eq!(tried(1, &[8, 0, 7, 0, 1, 0, 0, 0]), Err(8));
    assert_eq!(tried(1, &[10, 0, 5, 0, 0, 0, 0, 0, 2, 0]), Err(8));
    assert_eq!(tried(1, &[10, 0, 5, 0, 0, 0, 0, 0, 0, 0]), Err(9));
    assert_eq!(tried(1, &[8, 0, 4, 0, 0, 0, 1, 0]), Err(9));
    assert_eq!(tried(1, &OUTPUT_0_0), Err(9));
    assert_eq!(tried(1, &ONES_0), Err(10));
    assert_eq!(tried(1, &[&ONES_0[..], &[0]].concat()), Err(4));
    assert_eq!(tried(2, &[&ONES_0[..], &OUTPUT_0_0].concat()), Ok(()));
    assert_eq!(tried(2, &[&ONES_0[..], &OUTPUT_0_0, &[0]].concat()), Err(4));
    assert_eq!(tried(3, &[&ONES_0[..], &OUTPUT_0_0].concat()), Err(1));
    // What is missing at the end is found after what is wrong before.
    assert_eq!(
        tried(3, &[&ONES_0[..], &[6, 0, 1, 0, 2, 0]].concat()),
        Err(8)
    );
}

#[test]
fn runs_try_the_program_then_position_then_words() {
    let program = translate(&Matrix::from_texts(&["1"])).encode();
    let header = program::check(&program).unwrap();
    let sizes = (header.registers, header.inputs, header.outputs);
    assert_eq!((sizes, header.rows, header.count), ((6, 1, 1), 1, 9));
    for budget in [0, 9, u32::MAX] {
        assert_eq!(start(&program[1..], &[], 0, 0, budget), Err(2));
        assert_eq!(start(&program, &[], 6, 1, budget), Err(13));
        assert_eq!(start(&program, &[1], 5, 1, budget), Err(13));
        assert_eq!(start(&program, &[1], 6, 0, budget), Err(13));
        assert_eq!(resume(&program[..91], &[], &[], &[], 10, budget), Err(1));
        assert_eq!(resume(&program, &[], &[], &[], 10, budget), Err(12));
        assert_eq!(resume(&program, &[], &[0; 6], &[0], 9, budget), Err(13));
    }
    let run = start(&program, &[1, 2], 8, 3, 0).unwrap();
    assert_eq!((run.finished, run.position, run.count), (false, 0, 0));
    assert_eq!((run.registers, run.outputs), (vec![0; 6], vec![0]));
}

#[test]
fn resume_touches_nothing_at_the_end() {
    let program = translate(&Matrix::from_texts(&["1"])).encode();
    let run = resume(&program, &[7], &[3; 9], &[4; 2], 9, u32::MAX).unwrap();
    assert_eq!((run.finished, run.position, run.count), (true, 9, 0));
    assert_eq!((run.registers, run.outputs), (vec![3; 6], vec![4]));
}

#[test]
fn slice_tries_columns_strings_bits_and_words() {
    for columns in [0, 193, 65_536 + 8, (1 << 32) + 8] {
        assert_eq!(slice(columns, &[1], 0), Err(3));
    }
    for columns in [128, 129, 192] {
        assert_eq!(slice(columns, &[1], 0), Err(13));
    }
    assert_eq!(slice(7, &[1; 63], 0), Err(13));
    let mut strings = [0x80; 64];
    assert_eq!(slice(7, &strings, 6), Err(13));
    assert_eq!(slice(7, &strings, 7).unwrap(), [u64::MAX, 0, 0, 0, 0, 0, 0]);
    strings[63] = 0x81;
    assert_eq!(slice(7, &strings, 6), Err(5));
    assert_eq!(slice(8, &strings, 8).unwrap()[7], 1 << 63);
    assert_eq!(slice(9, &strings, 9), Err(13));
}

#[test]
fn samples_of_output_words() {
    assert_eq!(samples(1, &[], 64), Err(3));
    assert_eq!(samples(128, &[0; 9], 0), Err(3));
    assert_eq!(samples(128, &[0; 8], 63), Err(13));
    assert_eq!(signed_samples(128, &[0; 9], 0, 0), Err(3));
    assert_eq!(signed_samples(128, &[0; 8], 0, 63), Err(13));
    // Lane 0: 127. Lane 1: a miss with all else set. Lane 2: 0. Lane 3: 64. Others miss.
    let words = [
        0b1101, 0b0011, 0b0011, 0b0011, 0b0011, 0b0011, 0b0011, 0b1011,
    ];
    let laid = samples(128, &words, 70).unwrap();
    assert_eq!(laid[..5], [127, 255, 0, 64, 255]);
    assert_eq!(laid.len(), 64);
    assert_eq!(
        signed_samples(128, &words, 0, 64).unwrap()[..5],
        [127, 32_767, 0, 64, 32_767]
    );
    let laid = signed_samples(128, &words, u64::MAX, 64).unwrap();
    assert_eq!(laid[..5], [-127, 32_767, 0, -64, 32_767]);
}

#[test]
fn draw_tries_program_strings_bits_and_samples() {
    let program = translate(&Matrix::from_texts(&["10", "01", "01"])).encode();
    let mut strings: Vec<u8> = (0..64).map(|lane| (lane % 4) << 6).collect();
    assert_eq!(draw(&program[..9], &[], 0), Err(1));
    assert_eq!(draw(&program, &[0xff; 63], 0), Err(13));
    assert_eq!(draw(&program, &[0xff; 64], 0), Err(5));
    assert_eq!(draw(&program, &strings, 63), Err(13));
    assert_eq!(draw_signed(&program, &[0xff; 64], 0, 0), Err(5));
    assert_eq!(draw_signed(&program, &strings, 0, 63), Err(13));
    assert_eq!(draw(&program, &strings, 64).unwrap()[..4], [0, 0, 2, 1]);
    assert_eq!(
        draw_signed(&program, &strings, 6, 64).unwrap()[..4],
        [0, 0, -2, 1]
    );
    strings[63] |= 1;
    assert_eq!(draw(&program, &strings, 64), Err(5));
}

#[test]
fn lister_lists_up_to_its_limit() {
    let listed = with_program_length(MOST_LISTED).unwrap();
    assert_eq!(translate(&listed).encode().len(), 65_536);
    let first = format!(
        "394 {} 8 128 {}\n",
        listed.columns,
        translate(&listed).header.count
    );
    assert!(lister(&listed.encode()).starts_with(&first));
    let unlisted = with_program_length(MOST_LISTED + 2).unwrap();
    assert_eq!(translate(&unlisted).encode().len(), 65_538);
    assert_eq!(lister(&unlisted.encode()), "refused 13\n");
}

#[test]
fn lister_refuses_long_files() {
    let mut long = file_of(&["1", "1"]);
    long.resize(70_000, 0);
    assert_eq!(lister(&long), "refused 4\n");
    // The first 65,536 bytes are enough to tell.
    assert_eq!(lister(&long[..65_536]), "refused 4\n");
}

/// Four lists and two multipliers that are sound, with room for the results.
#[derive(Clone)]
struct Four {
    lists: [Vec<i16>; 4],
    multipliers: [u32; 2],
    results_lent: usize,
}

impl Four {
    fn new() -> Self {
        Four {
            lists: [1, 2, 3, 4].map(|entry| vec![entry; 64]),
            multipliers: [3, 11],
            results_lent: 64,
        }
    }

    /// The same, changed.
    fn but(&self, change: impl FnOnce(&mut Four)) -> Four {
        let mut changed = self.clone();
        change(&mut changed);
        changed
    }

    fn combined(&self) -> Answer<Vec<i32>> {
        let [x1, x2, x3, x4] = &self.lists;
        let [first, second] = self.multipliers;
        combine(x1, x2, x3, x4, first, second, self.results_lent)
    }

    /// Each buffer one short: a list, or the results.
    fn cut(&self) -> [Four; 5] {
        [0, 1, 2, 3, 4].map(|buffer| {
            self.but(|four| match four.lists.get_mut(buffer) {
                Some(list) => list.truncate(63),
                None => four.results_lent = 63,
            })
        })
    }
}

#[test]
fn combine_takes_multipliers_of_1_to_1000() {
    for at in [0, 1] {
        let with = |multiplier: u32| Four::new().but(|four| four.multipliers[at] = multiplier);
        for within in [1, 2, 3, 999, 1_000] {
            // (1 + 2 first) + second × (3 + 4 first)
            let [first, second] = with(within).multipliers.map(|number| number as i32);
            let result = 1 + 2 * first + second * (3 + 4 * first);
            assert_eq!(with(within).combined(), Ok(vec![result; 64]));
        }
        for outside in [0, 1_001, 65_536, 65_537, 66_536, 1 << 31, u32::MAX] {
            assert_eq!(with(outside).combined(), Err(14));
        }
    }
}

#[test]
fn combine_needs_64_entries_and_room_for_64_results() {
    let sound = Four::new();
    let results = sound.combined().unwrap();
    assert_eq!(results.len(), 64);
    for cut in sound.cut() {
        assert_eq!(cut.combined(), Err(13));
    }
    for length in [0, 1, 63] {
        for list in 0..4 {
            let short = sound.but(|four| four.lists[list].truncate(length));
            assert_eq!(short.combined(), Err(13));
        }
        let short = sound.but(|four| four.results_lent = length);
        assert_eq!(short.combined(), Err(13));
    }
    for length in [65, 66, usize::MAX] {
        let longer = sound.but(|four| four.results_lent = length);
        assert_eq!(longer.combined().as_ref(), Ok(&results));
    }
    // What lies after the 64 entries is not tried.
    for list in 0..4 {
        for entry in [0, 128, -32_768] {
            let longer = sound.but(|four| four.lists[list].push(entry));
            assert_eq!(longer.combined().as_ref(), Ok(&results));
        }
    }
}

/// A lane of the sound lists gives (1 + 6) + 11 × (3 + 12) = 172.
#[test]
fn combine_tries_every_entry() {
    let sound = Four::new();
    for (list, part) in [1, 3, 11, 33].into_iter().enumerate() {
        for lane in 0..64 {
            let with = |entry: i16| sound.but(|four| four.lists[list][lane] = entry).combined();
            for entry in [-127, 0, 127] {
                let change = i32::from(entry) - list as i32 - 1;
                let results = with(entry).unwrap();
                assert_eq!(results[lane], 172 + part * change);
                assert_eq!(results.iter().filter(|&&result| result == 172).count(), 63);
            }
            assert_eq!(with(32_767).unwrap()[lane], 2_147_483_647);
            for entry in [-128, 128, -255, 255, 256, 32_766, -32_767, -32_768] {
                assert_eq!(with(entry), Err(5));
            }
        }
    }
}

/// A miss in the same lane, or in all the others, hides no entry that is no sample.
#[test]
fn combine_tries_entries_beside_a_miss() {
    for list in 0..4 {
        let missed = Four::new().but(|four| four.lists = [(); 4].map(|()| vec![32_767; 64]));
        assert_eq!(missed.combined(), Ok(vec![2_147_483_647; 64]));
        for (lane, entry) in [(0, -32_767), (31, 128), (63, -32_768)] {
            let unsound = missed.but(|four| four.lists[list][lane] = entry);
            assert_eq!(unsound.combined(), Err(5));
        }
    }
}

#[test]
fn combine_tries_multipliers_then_lengths_then_entries() {
    let sound = Four::new();
    for list in 0..4 {
        let unsound = sound.but(|four| four.lists[list][0] = 128);
        assert_eq!(unsound.combined(), Err(5));
        for cut in unsound.cut() {
            assert_eq!(cut.combined(), Err(13));
        }
        for multipliers in [[0, 11], [3, 1_001], [1_001, 0]] {
            let outside = unsound.but(|four| four.multipliers = multipliers);
            assert_eq!(outside.combined(), Err(14));
            for cut in outside.cut() {
                assert_eq!(cut.combined(), Err(14));
            }
        }
    }
    for outside in [0, 1_001] {
        assert_eq!(combine(&[], &[], &[], &[], outside, 11, 0), Err(14));
        assert_eq!(combine(&[], &[], &[], &[], 3, outside, 0), Err(14));
    }
    assert_eq!(combine(&[], &[], &[], &[], 3, 11, 0), Err(13));
}

/// 2^63.
const TOP: u64 = 1 << 63;

#[test]
fn tables_have_2_to_129_numbers() {
    for numbers in [2, 3, 128, 129] {
        let file = import(&vec![0; numbers], 63, usize::MAX).unwrap();
        assert_eq!(check(&file), Ok((numbers - 1, 63)));
        assert_eq!(lookup(&vec![0; numbers], 63, 1), Ok(None));
        assert_eq!(export(&file, numbers).unwrap().table, vec![0; numbers]);
    }
    for numbers in [0, 1, 130, 131, 258, 65_538] {
        assert_eq!(import(&vec![0; numbers], 63, usize::MAX), Err(3));
        assert_eq!(lookup(&vec![0; numbers], 63, 1), Err(3));
    }
}

#[test]
fn tables_have_1_to_63_columns() {
    for columns in 1..=63 {
        let file = import(&[0, 1, 1], columns, usize::MAX).unwrap();
        assert_eq!(check(&file), Ok((2, columns)));
        assert_eq!(export(&file, 3).unwrap().columns, columns);
        assert_eq!(lookup(&[0, 1, 1], columns, 1), Ok(Some(0)));
    }
    for columns in [0, 64, 65, 127, 128, 129, 192, 193, 258, 65_538] {
        assert_eq!(import(&[0, 1, 1], columns, usize::MAX), Err(3));
        assert_eq!(lookup(&[0, 1, 1], columns, 1), Err(3));
    }
    for columns in [1 << 32, (1 << 32) + 1, (1 << 63) + 1, usize::MAX] {
        assert_eq!(import(&[0, 1, 1], columns, usize::MAX), Err(3));
        assert_eq!(lookup(&[0, 1, 1], columns, 1), Err(3));
    }
    for columns in 64..=192 {
        let file = file_of(&[&"0".repeat(columns)]);
        assert_eq!(export(&file, 2), Err(3));
        assert_eq!(export(&file, 0), Err(3));
    }
}

/// From 1 to 2^n, at every n, where the last number is 2^n - 1: 2^n alone misses.
#[test]
fn lookup_takes_1_to_two_to_the_n() {
    for columns in 1..=63 {
        let all = 1 << columns;
        let table = [0, 0, all - 1, all - 1];
        assert_eq!(lookup(&table, columns, 1), Ok(Some(1)));
        assert_eq!(lookup(&table, columns, all - 1), Ok(Some(1)));
        assert_eq!(lookup(&table, columns, all), Ok(None));
        for r in [0, all + 1, u64::MAX] {
            assert_eq!(lookup(&table, columns, r), Err(3));
        }
    }
    for r in [1 << 32, (1 << 32) + 1, TOP, TOP + 1] {
        assert_eq!(lookup(&[0, 1, 1], 31, r), Err(3));
    }
}

/// At every n and every place of four numbers: the rules of 15, each by the least amount and by the
/// largest.
#[test]
fn tables_begin_at_0_do_not_fall_and_end_at_two_to_the_n() {
    for columns in 1..=63 {
        let all = 1 << columns;
        let refused = |table: &[u64]| {
            assert_eq!(import(table, columns, usize::MAX), Err(15), "{table:?}");
            assert_eq!(lookup(table, columns, 1), Err(15), "{table:?}");
        };
        for first in [1, all, TOP, u64::MAX] {
            refused(&[first; 4]);
            refused(&[first, 0, 0, 0]);
        }
        for last in [all + 1, TOP + 1, u64::MAX] {
            refused(&[0, 0, 0, last]);
            refused(&[0, last, last, last]);
        }
        for (from, to) in [
            (1, 0),
            (all, all - 1),
            (all, 0),
            (u64::MAX, 0),
            (TOP, all - 1),
        ] {
            for table in [[0, from, to, all], [0, 0, from, to], [from, to, to, all]] {
                refused(&table);
            }
        }
        assert!(import(&[0, 1, 1, all], columns, usize::MAX).is_ok());
        assert!(import(&[0, 0, all - 1, all], columns, usize::MAX).is_ok());
    }
}

/// A difference of 2^n at every place, at every n; 2^n - 1 and then 1 is none.
#[test]
fn no_row_holds_two_to_the_n() {
    for columns in 1..=63 {
        let all = 1 << columns;
        for numbers in [2, 3, 5, 129] {
            for place in [1, numbers / 2, numbers - 1] {
                let mut table = vec![0; numbers];
                table[place..].fill(all);
                assert_eq!(import(&table, columns, usize::MAX), Err(16));
                assert_eq!(lookup(&table, columns, 1), Err(16));
                table[place] -= 1;
                let imported = import(&table, columns, usize::MAX);
                assert_eq!(check(&imported.unwrap()), Ok((numbers - 1, columns)));
            }
        }
    }
}

#[test]
fn import_tries_sizes_numbers_rows_and_room() {
    for table in [&[1, 0][..], &[0, 3, 2], &[0, 5]] {
        for columns in [0, 64, usize::MAX] {
            assert_eq!(import(table, columns, 0), Err(3));
        }
        assert_eq!(import(table, 2, 0), Err(15));
    }
    assert_eq!(import(&[1], 2, 0), Err(3));
    assert_eq!(import(&[1; 130], 2, 0), Err(3));
    // A difference of 2^n, with a number that is not cumulative before it, after it, or with it.
    for table in [&[0, 1, 0, 4][..], &[0, 4, 3], &[0, 4, 5], &[1, 5], &[4, 8]] {
        assert_eq!(import(table, 2, 0), Err(15));
        assert_eq!(import(table, 2, usize::MAX), Err(15));
    }
    for file_lent in [0, 8, 9, usize::MAX] {
        assert_eq!(import(&[0, 4], 2, file_lent), Err(16));
    }
    assert_eq!(import(&[0, 4], 0, 0), Err(3));
    for (numbers, columns, length) in [(2, 1, 9), (4, 8, 11), (4, 9, 14), (129, 63, 1_032)] {
        let table = vec![0; numbers];
        assert_eq!(import(&table, columns, length).unwrap().len(), length);
        assert_eq!(import(&table, columns, length - 1), Err(13));
        assert_eq!(import(&table, columns, 0), Err(13));
    }
}

#[test]
fn lookup_tries_sizes_and_the_number_before_the_table() {
    for table in [&[1, 0][..], &[0, 3, 2], &[0, 5], &[0, 4], &[0, 1, 0, 4]] {
        for (columns, r) in [(0, 1), (64, 1), (2, 0), (2, 5), (usize::MAX, 1)] {
            assert_eq!(lookup(table, columns, r), Err(3));
        }
        let number = if table == [0, 4] { 16 } else { 15 };
        for r in 1..=4 {
            assert_eq!(lookup(table, 2, r), Err(number));
        }
    }
}

/// The matrix's own checks, then 3 for n above 63, then 13.
#[test]
fn export_tries_the_matrix_then_columns_then_room() {
    let zeros = [0; 9];
    assert_eq!(export(&raw(17, 32, 1, 65, &zeros)[..3], 0), Err(1));
    assert_eq!(export(&raw(17, 16, 1, 65, &zeros), 0), Err(2));
    assert_eq!(export(&raw(17, 32, 1, 65, &zeros[1..]), 0), Err(1));
    assert_eq!(export(&raw(17, 32, 1, 193, &zeros), 0), Err(3));
    assert_eq!(export(&raw(17, 32, 1, 192, &zeros), 0), Err(4));
    assert_eq!(export(&raw(16, 32, 1, 65, &zeros), 0), Err(4));
    let spare = [0, 0, 0, 0, 0, 0, 0, 0, 1];
    assert_eq!(export(&raw(17, 32, 1, 65, &spare), 0), Err(5));
    let half = format!("1{}", "0".repeat(64));
    assert_eq!(export(&file_of(&[&half, &half, &half]), 0), Err(6));
    assert_eq!(export(&file_of(&[&half, &half]), 0), Err(3));
    assert_eq!(export(&file_of(&[&half, &half]), 3), Err(3));
    // The same of one with a table, where the room is the last to be tried.
    assert_eq!(export(&raw(10, 32, 2, 2, &[0xc0, 0xc1]), 0), Err(5));
    assert_eq!(export(&raw(10, 32, 2, 2, &[0xc0, 0xc0]), 0), Err(6));
    let file = file_of(&["11", "01"]);
    for table_lent in [0, 1, 2] {
        assert_eq!(export(&file, table_lent), Err(13));
    }
    for table_lent in [3, 4, usize::MAX] {
        assert_eq!(export(&file, table_lent).unwrap().table, [0, 3, 4]);
    }
}

/// Of each number of rows, all set in the last of 7 columns: the last row has the string of all
/// zeros, and the number that follows is no row's, nor any that 8, 16, 32 or 63 bits take for one.
#[test]
fn string_for_takes_numbers_below_the_rows() {
    for rows in 1..=128 {
        let file = file_of(&vec!["0000001"; rows]);
        let first = 2 * (rows as u8 - 1);
        assert_eq!(string_for(&file, 0, 1), Ok(Some(vec![first])));
        assert_eq!(string_for(&file, rows - 1, 1), Ok(Some(vec![0])));
        for row in [rows, rows + 1, 128, 129, 255, 256, 65_535, 65_536] {
            assert_eq!(string_for(&file, row, 1), Err(3));
        }
        for row in [1 << 32, (1 << 32) + rows - 1, 1 << 63, usize::MAX] {
            assert_eq!(string_for(&file, row, 1), Err(3));
        }
        assert_eq!(string_for(&file, 127, 1).is_ok(), rows == 128);
    }
}

/// At every n: a row of which the string has only ones, one with only zeros, and one without any.
#[test]
fn string_for_needs_room_for_the_string() {
    for columns in 1..=192usize {
        let one = format!("{}1", "0".repeat(columns - 1));
        let (ones, zeros) = ("1".repeat(columns), "0".repeat(columns));
        let file = file_of(&[&one, &ones, &zeros]);
        let length = columns.div_ceil(8);
        let mut filled = vec![0xff; length];
        filled[length - 1] <<= 8 * length - columns;
        let strings = [Some(filled), Some(vec![0x00; length]), None];
        for (row, string) in strings.iter().enumerate() {
            for string_lent in [length, length + 1, 65_536 + length, usize::MAX] {
                let found = string_for(&file, row, string_lent);
                assert_eq!(found.as_ref(), Ok(string), "{columns} columns");
            }
            for string_lent in [0, length - 1] {
                assert_eq!(string_for(&file, row, string_lent), Err(13));
            }
        }
    }
}

/// The matrix's own checks, then 3 for a row number not below m, then 13, also where the row is all
/// zero.
#[test]
fn string_for_tries_the_matrix_then_the_row_then_room() {
    // Each refusal of the matrix with the next, and a row and room that are sound, or not.
    for (row, string_lent) in [(0, 1), (0, 0), (2, 1), (2, 0), (usize::MAX, 0)] {
        let tried = |file: &[u8]| string_for(file, row, string_lent);
        assert_eq!(tried(&raw(9, 16, 1, 1, &[])[..3]), Err(1));
        assert_eq!(tried(&raw(9, 16, 1, 1, &[])), Err(2));
        assert_eq!(tried(&raw(9, 16, 0, 1, &[0])), Err(2));
        assert_eq!(tried(&raw(9, 32, 0, 1, &[])), Err(1));
        assert_eq!(tried(&raw(8, 32, 1, 193, &[0])), Err(3));
        assert_eq!(tried(&raw(8, 32, 1, 192, &[0])), Err(4));
        assert_eq!(tried(&raw(8, 32, 1, 1, &[1])), Err(4));
        assert_eq!(tried(&raw(9, 32, 1, 1, &[1, 1])), Err(4));
        assert_eq!(tried(&raw(10, 32, 2, 2, &[0xc1, 0xc0])), Err(5));
        assert_eq!(tried(&raw(10, 32, 2, 2, &[0xc0, 0xc0])), Err(6));
    }
    // Row 0 is hit by 00, row 1 is all zero.
    let file = raw(10, 32, 2, 2, &[0xc0, 0x00]);
    for string_lent in [0, 1, 2] {
        assert_eq!(string_for(&file, 2, string_lent), Err(3));
    }
    for (row, string) in [(0, Some(vec![0x00])), (1, None)] {
        assert_eq!(string_for(&file, row, 0), Err(13));
        assert_eq!(string_for(&file, row, 1), Ok(string));
    }
}

/// A row that is set in the last column alone: by itself, where all zeros hit it, and beside one that
/// is set in the first column alone, where a 1 and then zeros do.
#[test]
fn string_for_goes_to_the_last_column() {
    for columns in [
        2, 8, 31, 32, 33, 63, 64, 65, 66, 97, 127, 128, 129, 191, 192usize,
    ] {
        let (first, last) = (
            format!("1{}", "0".repeat(columns - 1)),
            format!("{}1", "0".repeat(columns - 1)),
        );
        let mut string = vec![0x00; columns.div_ceil(8)];
        assert_eq!(
            string_for(&file_of(&[&last]), 0, 24),
            Ok(Some(string.clone()))
        );
        string[0] = 0x80;
        let file = file_of(&[&first, &last]);
        assert_eq!(string_for(&file, 1, 24), Ok(Some(string)));
        assert_eq!(string_for(&file, 0, 24).unwrap().unwrap()[0], 0x00);
    }
}

/// The answers of an opening, of a draw of nothing and of a refill: 0, or the refusal.
fn answers(words: usize, records: &[(u32, u32, u32)]) -> [u32; 3] {
    let signers = Pool::of(words, records).signers;
    let number = |answer: Answer<()>| answer.err().unwrap_or(0);
    [
        number(pool::open(words, &signers).map(|_| ())),
        number(pool::draw(words, &signers, 0, 0).map(|_| ())),
        number(pool::refill(words, &signers).map(|_| ())),
    ]
}

/// The start of a draw, or the refusal.
fn start_of(words: usize, records: &[(u32, u32, u32)], signer: usize, q: usize) -> Answer<usize> {
    let signers = Pool::of(words, records).signers;
    pool::draw(words, &signers, signer, q).map(|granted| granted.start)
}

#[test]
fn pools_take_1_to_16_signers() {
    for number in 0..=40 {
        let refusal = if (1..=16).contains(&number) { 0 } else { 3 };
        assert_eq!(answers(40, &vec![(1, 1, 0); number]), [refusal; 3]);
        assert_eq!(answers(40, &vec![(0, 0, 0); number]), [refusal; 3]);
    }
    for number in [256, 256 + 1, 65_536 + 1] {
        assert_eq!(answers(40, &vec![(0, 0, 0); number]), [3; 3]);
    }
}

#[test]
fn pools_take_up_to_65536_words() {
    for words in [0, 1, 2, 65_535, 65_536] {
        let all = words as u32;
        assert_eq!(answers(words, &[(all, all, 0)]), [0; 3]);
        assert_eq!(answers(words, &[(all, u32::MAX, all)]), [0; 3]);
        assert_eq!(answers(words, &[(all + 1, u32::MAX, 0)]), [3; 3]);
        assert_eq!(start_of(words, &[(0, all, 0)], 0, words), Ok(0));
        assert_eq!(start_of(words, &[(0, all, all)], 0, 0), Ok(words));
        assert_eq!(start_of(words, &[(0, u32::MAX, 0)], 0, words + 1), Err(19));
    }
    for words in [65_537, 131_072, 1 << 32, (1 << 32) + 9, 1 << 63, usize::MAX] {
        assert_eq!(answers(words, &[(1, 2, 1)]), [3; 3]);
        assert_eq!(answers(words, &[(0, 0, 0)]), [3; 3]);
    }
}

/// At each place of 1, 3 and 16 signers. An opening does not look at what was drawn.
#[test]
fn pools_keep_reserves_and_draws_within_caps() {
    for number in [1, 3, 16] {
        for place in 0..number {
            let with = |reserve: u32, cap: u32, drawn: u32| {
                let mut records = vec![(1, 2, 1); number];
                records[place] = (reserve, cap, drawn);
                answers(60_000, &records)
            };
            for cap in [0, 1, 5, 40_000] {
                assert_eq!(with(cap, cap, cap), [0; 3]);
                assert_eq!(with(cap + 1, cap, cap), [3; 3]);
                assert_eq!(with(cap, cap, cap + 1), [0, 3, 3]);
            }
            for large in [1 << 16, 1 << 31, u32::MAX] {
                assert_eq!(with(large, large - 1, 0), [3; 3]);
                assert_eq!(with(0, large - 1, large), [0, 3, 3]);
            }
        }
    }
}

/// Reserves, draws, and of each signer the larger of the two, that are as many as the words, and one
/// more, wherever that one is.
#[test]
fn pools_have_words_for_all_claims() {
    let claims = [(3, 9, 1), (0, 9, 4), (2, 9, 2), (5, 9, 0)];
    assert_eq!(answers(14, &claims), [0; 3]);
    assert_eq!(answers(13, &claims), [0, 3, 3]);
    assert_eq!(answers(10, &claims), [0, 3, 3]);
    assert_eq!(answers(9, &claims), [3; 3]);
    for place in 0..4 {
        let mut more = claims;
        more[place].0 = more[place].0.max(more[place].2) + 1;
        assert_eq!(answers(14, &more)[1..], [3; 2]);
        let mut more = claims;
        more[place].2 = more[place].0.max(more[place].2) + 1;
        assert_eq!(answers(14, &more), [0, 3, 3]);
    }
}

/// Sums that 32 bits would take for 0, for 1 or for a little more.
#[test]
fn pools_add_up_more_than_32_bits() {
    const TOP: u32 = u32::MAX;
    let sums: [&[u32]; 6] = [
        &[1 << 31, 1 << 31],
        &[TOP, 1],
        &[TOP, 2],
        &[1, TOP, 0, 7],
        &[1 << 28; 16],
        &[TOP; 16],
    ];
    for sum in sums {
        let reserved: Vec<_> = sum.iter().map(|&number| (number, TOP, 0)).collect();
        let drawn: Vec<_> = sum.iter().map(|&number| (0, TOP, number)).collect();
        for words in [0, 1, 7, 65_536] {
            assert_eq!(answers(words, &reserved), [3; 3]);
            assert_eq!(answers(words, &drawn), [0, 3, 3]);
        }
    }
    assert_eq!(answers(0, &[(1 << 31, TOP, 0), (0, TOP, 1 << 31)]), [3; 3]);
}

/// 17 is for every number that is not below theirs.
#[test]
fn draws_take_numbers_below_the_signers() {
    for number in 1..=16 {
        let records = vec![(0, 1, 0); number];
        for signer in 0..number {
            assert_eq!(start_of(20, &records, signer, 1), Ok(0));
        }
        for signer in [number, number + 1, 16, 17, 255, 256, 65_536] {
            assert_eq!(start_of(20, &records, signer, 1), Err(17));
        }
        for signer in [1 << 32, (1 << 32) + number - 1, 1 << 63, usize::MAX] {
            assert_eq!(start_of(20, &records, signer, 0), Err(17));
        }
    }
}

/// 18 is for every q above cap - drawn, also where the sum has 33 or 65 bits, and for no other.
#[test]
fn draws_stay_within_the_cap() {
    for (cap, drawn) in [(0, 0), (5, 0), (5, 4), (5, 5), (60_000, 7)] {
        let records = [(0, cap, drawn), (0, 9, 3)];
        let most = (cap - drawn) as usize;
        let start = drawn as usize + 3;
        assert_eq!(start_of(65_536, &records, 0, most), Ok(start));
        for q in [most + 1, 1 << 32, (1 << 32) + most, usize::MAX] {
            assert_eq!(start_of(65_536, &records, 0, q), Err(18));
        }
        let wrapped = (1 << 32) - drawn as usize;
        assert_eq!(start_of(65_536, &records, 0, wrapped), Err(18));
    }
    // Up to the largest cap the words are tried, and above it the cap.
    let records = [(0, u32::MAX, 9)];
    let most = u32::MAX as usize - 9;
    for q in [65_528, 1 << 31, most] {
        assert_eq!(start_of(65_536, &records, 0, q), Err(19));
    }
    for q in [most + 1, usize::MAX - 9, usize::MAX - 8, usize::MAX] {
        assert_eq!(start_of(65_536, &records, 0, q), Err(18));
    }
}

/// 19 is for every q of which fewer words would be left than the others lack. The first has drawn
/// more than its reserve, the second lacks 4, the third 2, and the fourth nothing.
#[test]
fn draws_leave_what_the_others_lack() {
    let records = [(2, 99, 5), (6, 99, 2), (2, 99, 0), (0, 99, 1)];
    for words in 14..40 {
        let left = words - 8;
        for (signer, lack) in [(0, 6), (1, 2), (2, 4), (3, 6)] {
            for q in 0..=40 {
                let granted = q + lack <= left;
                let start = if granted { Ok(8) } else { Err(19) };
                assert_eq!(start_of(words, &records, signer, q), start);
            }
        }
    }
}

/// 3, then 17, then 18, then 19: each alone and with the later ones. Signer 0 has 5 to its cap, and
/// the others leave 3 of the 10 words, or 12 of 19.
#[test]
fn draws_try_records_then_signer_then_cap_then_words() {
    let sound = [(4, 6, 1), (3, 9, 2), (0, 3, 3)];
    for (words, signer, q, answer) in [
        (10, 0, 3, Ok(6)),
        (10, 0, 4, Err(19)),
        (10, 0, 5, Err(19)),
        (10, 0, 6, Err(18)),
        (19, 0, 5, Ok(6)),
        (19, 0, 6, Err(18)),
        (10, 3, 0, Err(17)),
        (10, 3, 4, Err(17)),
        (19, 3, 6, Err(17)),
        (10, 3, usize::MAX, Err(17)),
        (9, 0, 0, Err(3)),
        (9, 0, 4, Err(3)),
        (9, 0, 6, Err(3)),
        (9, 3, 0, Err(3)),
        (9, 3, usize::MAX, Err(3)),
    ] {
        assert_eq!(start_of(words, &sound, signer, q), answer);
    }
    let unsound = [(4, 6, 1), (3, 9, 2), (0, 3, 4)];
    for (signer, q) in [(0, 0), (0, 6), (3, 0), (3, usize::MAX), (2, 0)] {
        assert_eq!(start_of(100, &unsound, signer, q), Err(3));
    }
}
