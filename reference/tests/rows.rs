//! 02, order 10: rows in the program header, and in the reading of samples. Each check of the header
//! with the next, every number of rows with every number of outputs, every number that output words
//! spell, and compiled programs, whose samples are what they were; by hand.

use reference::compiler::compile;
use reference::draws::{draw, draw_signed};
use reference::lanes::{samples, signed_samples, slice};
use reference::lent;
use reference::listing::lister;
use reference::machine::{resume, start};
use reference::program::{check, Header};
use reference::random::{self, Random};
use reference::record::put;

/// Rows that are refused, the next to the least and to the most, and ones of which 8, 16, 32 or 63 bits
/// are within.
const OUTSIDE: [usize; 12] = [
    0,
    129,
    130,
    255,
    256,
    256 + 2,
    65_535,
    (1 << 16) + 1,
    (1 << 32) + 1,
    (1 << 32) + 128,
    (1 << 63) + 1,
    usize::MAX,
];

/// The value bits of so many rows, by the cases of 02, order 6.
fn bits_of(rows: usize) -> usize {
    match rows {
        1 => 0,
        2 => 1,
        3..=4 => 2,
        5..=8 => 3,
        9..=16 => 4,
        17..=32 => 5,
        33..=64 => 6,
        65..=128 => 7,
        _ => panic!("{rows} rows"),
    }
}

/// Fields of 16 bits.
fn record(fields: &[usize]) -> Vec<u8> {
    let mut file = Vec::new();
    fields.iter().for_each(|&value| put(&mut file, value));
    file
}

/// A program of one register and so many inputs that takes input i and sets output i, for each output
/// that there can be: 2 instructions an output.
fn through(rows: usize, outputs: usize, inputs: usize) -> Vec<u8> {
    let mut file = record(&[16, 16, 1, inputs, outputs, rows, 2 * outputs, 0]);
    for i in 0..outputs {
        file.extend(record(&[8, 3, 0, i.min(inputs - 1), 8, 7, i, 0]));
    }
    file
}

/// Every operation that takes a program file refuses this one so, with nothing else in order.
#[track_caller]
fn is_refused(file: &[u8], number: u32) {
    assert_eq!(check(file), Err(number));
    assert_eq!(start(file, &[], 0, 0, 0), Err(number));
    assert_eq!(resume(file, &[], &[], &[], u32::MAX, 0), Err(number));
    assert_eq!(draw(file, &[], 0), Err(number));
    assert_eq!(draw_signed(file, &[], 0, 0), Err(number));
}

/// The file with another field at a byte.
fn with(file: &[u8], at: usize, value: u16) -> Vec<u8> {
    let mut file = file.to_vec();
    file[at..at + 2].copy_from_slice(&value.to_le_bytes());
    file
}

/// Every number of rows and of outputs that a header can say: accepted exactly for the value bits of
/// the rows and one more.
#[test]
fn outputs_must_be_the_value_bits_of_rows_plus_1() {
    for rows in 0..=65_535 {
        let suits = |outputs| (1..=128).contains(&rows) && outputs == bits_of(rows) + 1;
        for outputs in 0..=9 {
            let program = through(rows, outputs, 8);
            if suits(outputs) {
                let header = Header {
                    registers: 1,
                    inputs: 8,
                    outputs,
                    rows,
                    count: 2 * outputs,
                };
                assert_eq!(check(&program), Ok(header));
            } else {
                assert_eq!(check(&program), Err(3), "{rows} rows, {outputs} outputs");
            }
        }
    }
}

/// 1, 2, 1, 4, 3, then what an instruction is refused for: each alone, with the next, and with all that
/// come after it.
#[test]
fn checks_of_a_header_come_in_their_order() {
    let sound = through(5, 4, 4);
    assert!(check(&sound).is_ok());
    // All fields but the kind at fault, and an instruction too.
    let faulty = |length: usize, kind: usize| record(&[length, kind, 0, 0, 9, 129, 0, 5, 6, 8, 0]);
    for end in 0..4 {
        is_refused(&faulty(14, 32)[..end], 1);
    }
    for end in 4..=22 {
        is_refused(&faulty(14, 32)[..end], 2);
        is_refused(&with(&sound, 2, 32)[..end], 2);
    }
    for end in 4..16 {
        is_refused(&faulty(14, 16)[..end], 1);
        is_refused(&with(&sound, 0, 14)[..end], 1);
        is_refused(&sound[..end], 1);
    }
    for length in [0, 14, 15, 17, 256 + 16, 65_535] {
        for end in 16..=22 {
            is_refused(&faulty(length, 16)[..end], 4);
        }
        let other = with(&sound, 0, length as u16);
        is_refused(&other, 4);
        for rows in [0, 4, 9, 129, 65_535] {
            is_refused(&with(&other, 10, rows), 4);
        }
    }
    for end in 16..=22 {
        is_refused(&faulty(16, 16)[..end], 3);
    }
}

/// Rows alone at fault, for each of the reasons, with every other fault of the header and of the first
/// instruction: 3 comes before 1, 7, 8 and 9 of an instruction, before bytes left over, and before 10.
#[test]
fn rows_at_fault_come_before_the_instructions() {
    let sound = through(5, 4, 4);
    let of_7 = with(&sound, 18, 8);
    let of_8 = with(&sound, 20, 1);
    let of_9 = with(&with(&sound, 18, 4), 22, 0);
    let of_10 = with(&sound, 28, 1);
    let left_over = [&sound[..], &[0]].concat();
    let of_1 = sound[..sound.len() - 1].to_vec();
    for (file, number) in [
        (of_1, 1),
        (of_7, 7),
        (of_8, 8),
        (of_9, 9),
        (of_10, 10),
        (left_over, 4),
    ] {
        is_refused(&file, number);
        for rows in [0, 1, 4, 9, 128, 129, 256 + 5, 65_535] {
            is_refused(&with(&file, 10, rows), 3);
        }
    }
    // Each of the other sizes at fault with rows that suit, and with rows that do not.
    for (at, value) in [(4, 0), (4, 1_025), (6, 0), (6, 193), (8, 9), (14, 4)] {
        let other = with(&sound, at, value);
        is_refused(&other, 3);
        is_refused(&with(&other, 10, 129), 3);
    }
}

/// A program as it was before: a header of 14 bytes without rows. 4 where 16 bytes are there, and 1
/// where not; and 2 to what takes a matrix.
#[test]
fn files_with_the_old_header_are_refused() {
    for (outputs, count) in [(1, 2), (8, 16)] {
        let sound = through(if outputs == 1 { 1 } else { 128 }, outputs, 8);
        let mut old = record(&[14, 16, 1, 8, outputs, count, 0]);
        old.extend(&sound[16..]);
        for end in 0..=old.len() {
            is_refused(&old[..end], if end < 16 { 1 } else { 4 });
        }
        assert_eq!(lister(&old), "refused 2\n");
        // The new header under the old length, and the old fields under the new one.
        is_refused(&with(&sound, 0, 14), 4);
        is_refused(&with(&old, 0, 16), 3);
    }
}

/// Output words in which lane j spells `first` + j, in so many bits; bit j of `hits` is its hit.
fn spelling(first: usize, bits: usize, hits: u64) -> Vec<u64> {
    let mut words = vec![hits];
    for t in 0..bits {
        let lanes = (0..64).filter(|lane| (first + lane) >> t & 1 == 1);
        words.push(lanes.fold(0, |word, lane| word | 1 << lane));
    }
    words
}

/// Every number that the words for so many rows can spell, of every number of rows: itself where it is
/// below them, and a miss where not, whatever the sign; and a miss without its bit of output 0.
#[test]
fn numbers_not_below_rows_are_misses() {
    let mut random = Random::new(44);
    let mut missed = 0;
    for rows in 1..=128usize {
        let bits = bits_of(rows);
        for first in (0..1 << bits).step_by(64) {
            let numbers: Vec<usize> = (0..64).map(|lane| (first + lane) % (1 << bits)).collect();
            for hits in [u64::MAX, 0, random.word(), random.word()] {
                let words = spelling(first, bits, hits);
                let number = |lane: usize| {
                    let drawn = hits >> lane & 1 == 1 && numbers[lane] < rows;
                    drawn.then_some(numbers[lane])
                };
                let plain: Vec<u8> = (0..64)
                    .map(|lane| number(lane).map_or(255, |number| number as u8))
                    .collect();
                assert_eq!(samples(rows, &words, 64), Ok(plain));
                for sign in [0, u64::MAX, random.word(), hits] {
                    let signed = |lane: usize| match (number(lane), sign >> lane & 1) {
                        (None, _) => 32_767,
                        (Some(number), 0) => number as i16,
                        (Some(number), _) => -(number as i16),
                    };
                    let expected: Vec<i16> = (0..64).map(signed).collect();
                    assert_eq!(signed_samples(rows, &words, sign, 65), Ok(expected));
                }
            }
            missed += numbers.iter().filter(|&&number| number >= rows).count();
        }
    }
    // From 3 to 64 rows each number that is not below them comes 64 / 2^k times, and above 64 once.
    let of_case = |k: usize| (0..1 << (k - 1)).sum::<usize>() * (64 >> k.min(6));
    assert_eq!(missed, (2..=7).map(of_case).sum());
}

/// 3 for rows outside, whatever the words, and for every number of words that does not suit the rows;
/// before 13, which is what suits with 63 samples lent.
#[test]
fn words_that_do_not_suit_are_refused() {
    let words = [u64::MAX; 10];
    for samples_lent in [0, 63, 64, usize::MAX] {
        let refused = |rows: usize, outputs: usize, number: u32| {
            let given = &words[..outputs];
            assert_eq!(samples(rows, given, samples_lent), Err(number));
            for sign in [0, u64::MAX] {
                let answer = signed_samples(rows, given, sign, samples_lent);
                assert_eq!(answer, Err(number));
            }
        };
        for outputs in 0..=10 {
            for rows in OUTSIDE {
                refused(rows, outputs, 3);
            }
            for rows in 1..=128 {
                if outputs != bits_of(rows) + 1 {
                    refused(rows, outputs, 3);
                } else if samples_lent < 64 {
                    refused(rows, outputs, 13);
                } else {
                    assert!(samples(rows, &words[..outputs], samples_lent).is_ok());
                    assert!(signed_samples(rows, &words[..outputs], 0, samples_lent).is_ok());
                }
            }
        }
    }
}

/// A program that no matrix compiles to: its outputs are its inputs, so that a string is a hit and a
/// number, lowest bit first. Of every number of rows each number is drawn, and one that is not below
/// the rows is a miss.
#[test]
fn a_number_not_below_rows_is_drawn_as_a_miss() {
    for rows in 1..=128usize {
        let bits = bits_of(rows);
        let program = through(rows, bits + 1, bits + 1);
        for first in (0..1usize << bits).step_by(64) {
            let string = |lane: usize| {
                let number = (first + lane) % (1 << bits);
                let value_bits = (0..bits).map(|t| (number >> t & 1) << (6 - t));
                (0x80 | value_bits.sum::<usize>()) as u8
            };
            let mut strings: Vec<u8> = (0..64).map(string).collect();
            // The last lane has no hit.
            strings[63] &= 0x7f;
            let number = |lane: usize| {
                let number = (first + lane) % (1 << bits);
                (number < rows && lane < 63).then_some(number as u8)
            };
            let plain: Vec<u8> = (0..64).map(|lane| number(lane).unwrap_or(255)).collect();
            assert_eq!(draw(&program, &strings, 64), Ok(plain));
            for (sign, factor) in [(0, 1), (u64::MAX, -1)] {
                let signed = |lane| number(lane).map_or(32_767, |n| factor * i16::from(n));
                let signed: Vec<i16> = (0..64).map(signed).collect();
                assert_eq!(draw_signed(&program, &strings, sign, 64), Ok(signed));
            }
        }
    }
}

/// The reading of 01, which knows no rows: the number in outputs 1 and up where the bit of output 0 is
/// set, and else 255.
fn read_without_rows(outputs: &[u64], lane: usize) -> u8 {
    let mut number = 0;
    for word in outputs[1..].iter().rev() {
        number = 2 * number + (word >> lane & 1) as u8;
    }
    match outputs[0] >> lane & 1 {
        0 => 255,
        _ => number,
    }
}

/// Compiled programs of every number of rows, given their own: the rows are the matrix's, and the
/// samples, plain and signed, read or drawn, are what they were.
#[test]
fn compiled_programs_sample_as_they_did() {
    let mut random = Random::new(45);
    let mut hits = 0;
    for rows in 1..=128 {
        for _ in 0..4 {
            let columns = random.between(1, 24);
            let matrix = random::matrix(&mut random, rows, columns);
            let program = compile(&matrix.encode(), usize::MAX).unwrap();
            assert_eq!(program[..4], [16, 0, 16, 0]);
            assert_eq!(program[10..12], (rows as u16).to_le_bytes());
            let header = check(&program).unwrap();
            assert_eq!((header.rows, header.outputs), (rows, bits_of(rows) + 1));
            let strings = random::strings(&mut random, &matrix);
            let words = slice(columns, &strings, columns).unwrap();
            let run = start(&program, &words, 1_024, 8, u32::MAX).unwrap();
            let old: Vec<u8> = (0..64)
                .map(|lane| read_without_rows(&run.outputs, lane))
                .collect();
            hits += old.iter().filter(|&&sample| sample != 255).count();
            assert_eq!(samples(rows, &run.outputs, 64), Ok(old.clone()));
            assert_eq!(draw(&program, &strings, 64), Ok(old.clone()));
            let sign = random.word();
            let signed = |lane: usize| match (old[lane], sign >> lane & 1) {
                (255, _) => 32_767,
                (sample, 0) => i16::from(sample),
                (sample, _) => -i16::from(sample),
            };
            let signed: Vec<i16> = (0..64).map(signed).collect();
            let read = signed_samples(rows, &run.outputs, sign, 64);
            assert_eq!(read, Ok(signed.clone()));
            assert_eq!(draw_signed(&program, &strings, sign, 64), Ok(signed));
        }
    }
    // Half of the 512 × 64 lanes and more hit.
    assert!(hits > 16_384, "{hits} hits");
}

/// Rows that are fewer than a compiled program's own, though its outputs suit them, turn the samples
/// from there on into misses, and no others.
#[test]
fn fewer_rows_take_samples_away() {
    let mut random = Random::new(46);
    let matrix = random::matrix_by_columns(&mut random, 16, 12, true);
    let program = compile(&matrix.encode(), usize::MAX).unwrap();
    let strings = random::strings(&mut random, &matrix);
    let whole = draw(&program, &strings, 64).unwrap();
    for rows in 9..=16u16 {
        let fewer = with(&program, 10, rows);
        let taken = |&sample: &u8| {
            if u16::from(sample) < rows {
                sample
            } else {
                255
            }
        };
        let expected: Vec<u8> = whole.iter().map(taken).collect();
        assert_eq!(draw(&fewer, &strings, 64), Ok(expected));
    }
    let largest = whole.iter().filter(|&&sample| sample != 255).max();
    assert!(largest >= Some(&9), "{largest:?}");
}

/// A run does not use rows: programs that differ in them alone leave the same words.
#[test]
fn runs_do_not_use_rows() {
    let words: Vec<u64> = Random::new(47).words(8);
    let first = through(65, 8, 8);
    for rows in 66..=128 {
        let other = through(rows, 8, 8);
        for budget in [0, 1, 7, 16, u32::MAX] {
            let run = start(&first, &words, 1, 8, budget).unwrap();
            assert_eq!(start(&other, &words, 1, 8, budget), Ok(run));
            let left = resume(&first, &words, &[3], &words, 5, budget).unwrap();
            assert_eq!(resume(&other, &words, &[3], &words, 5, budget), Ok(left));
        }
    }
    let run = start(&first, &words, 1, 8, 16).unwrap();
    assert_eq!(run.outputs, words);
}

/// The first line of a listing has the rows after the outputs.
#[test]
fn listings_begin_with_rows() {
    for rows in 1..=128 {
        let mut file = record(&[8 + rows, 32, rows, 1]);
        file.resize(8 + rows, 0);
        let bits = bits_of(rows);
        // ONES, ZERO and k more, INPUT, NOT, 2 ANDs, the ORs of 2 distances or of one, 1 + k OUTPUTs.
        let count = 2 + bits + 4 + rows.min(2) + 1 + bits;
        let first = format!("{} 1 {} {rows} {count}\n", 3 + bits + 3 * rows, 1 + bits);
        assert!(lister(&file).starts_with(&first), "{first}");
    }
}

/// Rows are told by a check, and kept by a refusal; samples are laid over 64 places alone.
#[test]
fn lent_rows_and_samples() {
    let told = |program: &[u8]| {
        let (mut registers, mut inputs, mut outputs, mut rows, mut count) = (91, 92, 93, 94, 95);
        let returned = lent::check(
            program,
            &mut registers,
            &mut inputs,
            &mut outputs,
            &mut rows,
            &mut count,
        );
        (returned, [registers, inputs, outputs, rows, count as usize])
    };
    assert_eq!(told(&through(5, 4, 6)), (0, [1, 6, 4, 5, 8]));
    assert_eq!(told(&through(9, 4, 6)), (3, [91, 92, 93, 94, 95]));
    let words = spelling(0, 3, u64::MAX);
    let (mut plain, mut signed) = ([77; 66], [77; 66]);
    for (rows, words, samples_lent, number) in [
        (0, &words[..], 66, 3),
        (5, &words[1..], 66, 3),
        (5, &words, 63, 13),
    ] {
        let returned = lent::samples(rows, words, &mut plain[..samples_lent]);
        assert_eq!((returned, plain), (number, [77; 66]));
        let returned = lent::signed_samples(rows, words, 0, &mut signed[..samples_lent]);
        assert_eq!((returned, signed), (number, [77; 66]));
    }
    assert_eq!(lent::samples(5, &words, &mut plain), 0);
    assert_eq!(plain[..64], [0, 1, 2, 3, 4, 255, 255, 255].repeat(8));
    assert_eq!(plain[64..], [77; 2]);
    assert_eq!(lent::signed_samples(5, &words, u64::MAX, &mut signed), 0);
    let miss = 32_767;
    assert_eq!(
        signed[..64],
        [0, -1, -2, -3, -4, miss, miss, miss].repeat(8)
    );
    assert_eq!(signed[64..], [77; 2]);
}
