//! 01, "Runs, words, samples", and 02, order 10: strings to words, and output words to samples.

use crate::matrix::MOST_COLUMNS;
use crate::program::outputs_suit;
use crate::record::{has_spare_bit, packed_length, unpack};
use crate::refusal::{refuse, Answer, BIT, BUFFER, SIZE};

/// The lanes of a word.
pub const LANES: usize = 64;
/// The sample of a lane that misses.
pub const MISS: u8 = 255;
/// The signed sample of a lane that misses.
pub const SIGNED_MISS: i16 = 32_767;

/// Slicing: 64 packed strings to n words, laid into a buffer of `words_lent` words.
pub fn slice(columns: usize, strings: &[u8], words_lent: usize) -> Answer<Vec<u64>> {
    refuse(SIZE, !(1..=MOST_COLUMNS).contains(&columns))?;
    let strings = check_strings(columns, strings)?;
    refuse(BUFFER, words_lent < columns)?;
    Ok(words_of(columns, strings))
}

/// The 64 strings themselves: 13 where there are fewer bytes, 5 where a spare bit is set.
pub fn check_strings(columns: usize, strings: &[u8]) -> Answer<&[u8]> {
    let length = packed_length(columns);
    refuse(BUFFER, strings.len() < LANES * length)?;
    let strings = &strings[..LANES * length];
    let mut each = strings.chunks(length);
    refuse(BIT, each.any(|string| has_spare_bit(string, columns)))?;
    Ok(strings)
}

/// Bit j of word i is bit b_i of lane j.
pub fn words_of(columns: usize, strings: &[u8]) -> Vec<u64> {
    let mut words = vec![0; columns];
    for (lane, string) in strings.chunks(packed_length(columns)).enumerate() {
        for (word, bit) in words.iter_mut().zip(unpack(string, columns)) {
            *word |= u64::from(bit) << lane;
        }
    }
    words
}

/// What a lane of the output words says: the number in outputs 1 and up, lowest first, or nothing
/// where output 0 has no bit, or where that number is no row's.
pub fn drawn(rows: usize, outputs: &[u64], lane: usize) -> Option<u8> {
    let bit = |output: usize| (outputs[output] >> lane & 1) as u8;
    let number = (1..outputs.len())
        .map(|output| bit(output) << (output - 1))
        .sum();
    (bit(0) == 1 && usize::from(number) < rows).then_some(number)
}

/// Samples: one byte a lane, laid into a buffer of `samples_lent` bytes.
pub fn samples(rows: usize, outputs: &[u64], samples_lent: usize) -> Answer<Vec<u8>> {
    check_samples(rows, outputs, samples_lent)?;
    Ok(samples_of(rows, outputs))
}

/// Signed samples: 16 bits a lane, laid into a buffer of `samples_lent` numbers.
pub fn signed_samples(
    rows: usize,
    outputs: &[u64],
    sign: u64,
    samples_lent: usize,
) -> Answer<Vec<i16>> {
    check_samples(rows, outputs, samples_lent)?;
    Ok(signed_samples_of(rows, outputs, sign))
}

/// 3 for the rows, and for output words that do not suit them, 13 for fewer than 64 samples.
fn check_samples(rows: usize, outputs: &[u64], samples_lent: usize) -> Answer<()> {
    refuse(SIZE, !outputs_suit(rows, outputs.len()))?;
    refuse(BUFFER, samples_lent < LANES)
}

/// The sample of every lane.
pub fn samples_of(rows: usize, outputs: &[u64]) -> Vec<u8> {
    (0..LANES)
        .map(|lane| drawn(rows, outputs, lane).unwrap_or(MISS))
        .collect()
}

/// The signed sample of every lane.
pub fn signed_samples_of(rows: usize, outputs: &[u64], sign: u64) -> Vec<i16> {
    let signed = |lane: usize| match drawn(rows, outputs, lane) {
        None => SIGNED_MISS,
        Some(number) if sign >> lane & 1 == 1 => -i16::from(number),
        Some(number) => i16::from(number),
    };
    (0..LANES).map(signed).collect()
}
