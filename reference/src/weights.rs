//! 01, "Matrix and walk", and 02, order 5: the matrix file that a list of weights stands for.
//!
//! A list stands for values: for plain use the samples 0 .. m - 1, for signed use the numbers
//! -(m - 1) .. m - 1. A value has the weight of its distance. S is what all values weigh, and row v
//! has the share of all values at distance v. So both signs of a distance count, and 0, which has
//! only one, counts once.

use crate::matrix::{are_sizes, file_length, Matrix};
use crate::natural::Natural;
use crate::refusal::{refuse, Answer, BUFFER, SIZE, WEIGHTLESS};

/// The distances of the values that a list of so many weights stands for: for signed use from m - 1
/// down to 0 and up again, so that each but 0 comes twice.
fn distances(number: usize, signed: bool) -> impl Iterator<Item = usize> {
    let last = number as isize - 1;
    let first = if signed { -last } else { 0 };
    (first..=last).map(isize::unsigned_abs)
}

/// The largest n-bit number not above 2^n × weight / sum.
fn share(weight: u64, sum: u64, columns: usize) -> Natural {
    let scaled = Natural::from(weight).shifted_up(columns);
    let (quotient, _) = scaled.divided_by_limb(sum);
    let largest = Natural::power_of_two(columns).minus(&Natural::from(1));
    quotient.min(largest)
}

/// The rows of weights that are not all 0. S is at most 255 × (2^32 - 1), which has 40 bits.
fn rows_of(weights: &[u32], columns: usize, signed: bool) -> Vec<Natural> {
    let (mut rows, mut sum) = (vec![0u64; weights.len()], 0u64);
    for distance in distances(weights.len(), signed) {
        let weight = u64::from(weights[distance]);
        rows[distance] += weight;
        sum += weight;
    }
    rows.into_iter()
        .map(|weight| share(weight, sum, columns))
        .collect()
}

/// Building: the file laid into a buffer of `file_lent` bytes. The operation answers its length.
/// What is refused does not depend on the use.
pub fn build(weights: &[u32], columns: usize, signed: bool, file_lent: usize) -> Answer<Vec<u8>> {
    refuse(SIZE, !are_sizes(weights.len(), columns))?;
    refuse(WEIGHTLESS, weights.iter().all(|&weight| weight == 0))?;
    refuse(BUFFER, file_lent < file_length(weights.len(), columns))?;
    let rows = rows_of(weights, columns, signed);
    Ok(Matrix::from_values(columns, &rows).encode())
}
