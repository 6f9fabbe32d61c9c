//! 02, order 7: the smallest string on which the walk hits a wanted row.
//!
//! It is found from its first bit on: a bit is 0 wherever some bits after it still lead to the row,
//! and otherwise 1. No string is tried for that: before a later column the distances that a walk can
//! have left are all the numbers from a least to a largest, and these two are followed.

use crate::matrix::{decode, Matrix};
use crate::natural::Natural;
use crate::record::{pack, packed_length};
use crate::refusal::{refuse, Answer, BUFFER, SIZE};
use crate::walk::{place_after_column, Place};

/// A column as a walk to the wanted row meets it.
struct Column {
    /// How many rows are set.
    ones: Natural,
    /// Where the wanted row is set, how many set rows are met before it: this distance hits it.
    before: Option<Natural>,
}

impl Column {
    fn of(matrix: &Matrix, column: usize, wanted: usize) -> Self {
        let set_from = |first: usize| {
            let set = (first..matrix.rows).filter(|&v| matrix.bit(v, column));
            Natural::from(set.count() as u64)
        };
        Column {
            ones: set_from(0),
            before: matrix.bit(wanted, column).then(|| set_from(wanted + 1)),
        }
    }
}

/// Whether a walk that has this distance left hits the wanted row in one of these columns, on some
/// bits.
///
/// With a 0 and with a 1, the distances from a to b become all those from 2a to 2b + 1. Those below
/// the number of set rows have hit, a row each. The others lose that number, and are all the
/// distances from a least to a largest again.
fn can_hit(columns: &[Column], distance: &Natural) -> bool {
    let (mut least, mut largest) = (distance.clone(), distance.clone());
    for Column { ones, before } in columns {
        least.double_and_add(0);
        largest.double_and_add(1);
        let within = |before: &Natural| least <= *before && *before <= largest;
        if before.as_ref().is_some_and(within) {
            return true;
        }
        if largest < *ones {
            return false;
        }
        least = least.max(ones.clone()).minus(ones);
        largest = largest.minus(ones);
    }
    false
}

/// The bits of the smallest string on which the walk hits the row, where there is one. A distance
/// that is left after the last column leads nowhere, so that the walk ends with a hit, or at its
/// first bit. After the hit no bit counts, and the smallest are 0.
fn smallest(matrix: &Matrix, wanted: usize) -> Option<Vec<u8>> {
    let columns = (0..matrix.columns).map(|column| Column::of(matrix, column, wanted));
    let columns: Vec<Column> = columns.collect();
    let (mut bits, mut place) = (Vec::new(), Place::Left(Natural::zero()));
    while let Place::Left(distance) = &place {
        let column = bits.len();
        let leads_there = |place: &Place| match place {
            Place::Hit { row, .. } => *row == wanted,
            Place::Left(distance) => can_hit(&columns[column + 1..], distance),
        };
        let after = |bit: u8| (bit, place_after_column(matrix, column, distance, bit));
        let mut both = [0, 1].into_iter().map(after);
        let (bit, next) = both.find(|(_, place)| leads_there(place))?;
        bits.push(bit);
        place = next;
    }
    bits.resize(matrix.columns, 0);
    Some(bits)
}

/// A string for a wanted sample: packed, laid into a buffer of `string_lent` bytes, or nothing where
/// no string hits the row.
pub fn string_for(file: &[u8], row: usize, string_lent: usize) -> Answer<Option<Vec<u8>>> {
    let matrix = decode(file)?;
    refuse(SIZE, row >= matrix.rows)?;
    refuse(BUFFER, string_lent < packed_length(matrix.columns))?;
    Ok(smallest(&matrix, row).map(|bits| pack(&bits)))
}
