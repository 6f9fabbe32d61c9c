//! 01, "Matrix and walk": the walk on one bit string. 02, order 1: the columns that it uses, and
//! those that the walks on 64 strings use together.

use crate::lanes::{check_strings, words_of, LANES};
use crate::matrix::{decode, Matrix};
use crate::natural::Natural;
use crate::record::{has_spare_bit, packed_length, unpack};
use crate::refusal::{refuse, Answer, BIT, BUFFER};

/// Where a walk stands after some columns.
#[derive(Clone, Debug, PartialEq, Eq)]
pub enum Place {
    /// It hit this row in this column.
    Hit { row: usize, column: usize },
    /// It has not hit yet and has this distance left.
    Left(Natural),
}

/// What a walk comes to.
#[derive(Clone, Copy, Debug, PartialEq, Eq)]
pub struct Walked {
    /// The row that it hit, or nothing for a miss.
    pub row: Option<usize>,
    /// The columns that it used: c + 1 for a hit in column c, n for a miss.
    pub used: usize,
}

/// One column: the distance is doubled and takes the bit, then the rows are scanned from the last
/// down to 0. The distance is a number of any size, so it can't wrap.
pub fn place_after_column(matrix: &Matrix, column: usize, distance: &Natural, bit: u8) -> Place {
    let mut distance = distance.clone();
    distance.double_and_add(bit);
    for row in (0..matrix.rows)
        .rev()
        .filter(|&row| matrix.bit(row, column))
    {
        if distance.is_zero() {
            return Place::Hit { row, column };
        }
        distance.decrease();
    }
    Place::Left(distance)
}

/// The walk on the bits given, one for each of the first columns.
pub fn place_after(matrix: &Matrix, bits: &[u8]) -> Place {
    let mut place = Place::Left(Natural::zero());
    for (column, &bit) in bits.iter().enumerate() {
        match place {
            Place::Hit { .. } => break,
            Place::Left(distance) => place = place_after_column(matrix, column, &distance, bit),
        }
    }
    place
}

/// The walk on n bits.
pub fn walk_bits(matrix: &Matrix, bits: &[u8]) -> Walked {
    match place_after(matrix, bits) {
        Place::Hit { row, column } => Walked {
            row: Some(row),
            used: column + 1,
        },
        Place::Left(_) => Walked {
            row: None,
            used: matrix.columns,
        },
    }
}

/// What the walks on all 2^n strings use together: for each 1 in column c, 2^(n-1-c) strings hit
/// there and use c + 1 each, and the strings that miss use n.
pub fn used_by_all(matrix: &Matrix) -> Natural {
    let columns = matrix.columns;
    let missing = matrix.misses().times(&Natural::from(columns as u64));
    (0..columns).fold(missing, |sum, c| {
        let ones = (0..matrix.rows).filter(|&v| matrix.bit(v, c)).count();
        let used = Natural::from((ones * (c + 1)) as u64);
        sum.plus(&used.shifted_up(columns - 1 - c))
    })
}

/// The walk on a packed string.
pub fn walk(file: &[u8], string: &[u8]) -> Answer<Walked> {
    let matrix = decode(file)?;
    refuse(BUFFER, string.len() < packed_length(matrix.columns))?;
    refuse(BIT, has_spare_bit(string, matrix.columns))?;
    Ok(walk_bits(&matrix, &unpack(string, matrix.columns)))
}

/// Spent: what the walks on 64 packed strings use together. It is added up column by column: every
/// walk that has not hit before a column uses it.
pub fn spent(file: &[u8], strings: &[u8]) -> Answer<usize> {
    let matrix = decode(file)?;
    let strings = check_strings(matrix.columns, strings)?;
    let lanes = (0..LANES).map(|lane| (lane, Natural::zero()));
    let mut walking: Vec<(usize, Natural)> = lanes.collect();
    let mut total = 0;
    for (column, word) in words_of(matrix.columns, strings).iter().enumerate() {
        total += walking.len();
        walking.retain_mut(|(lane, distance)| {
            let bit = (word >> *lane & 1) as u8;
            match place_after_column(&matrix, column, distance, bit) {
                Place::Hit { .. } => false,
                Place::Left(left) => {
                    *distance = left;
                    true
                }
            }
        });
    }
    Ok(total)
}
