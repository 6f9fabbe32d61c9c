//! The tables of the source documents, from exact arithmetic.
//!
//! A real number is held between two natural numbers over 2^320. Every step rounds the lower one
//! down and the upper one up, and a row is given only where both bounds have the same whole part,
//! so each row is exact.

use crate::cumulative::{sums, MOST_TABLE_COLUMNS};
use crate::matrix::Matrix;
use crate::natural::Natural;

/// The bits after the point.
const FRACTION: usize = 320;

/// A real number between low / 2^320 and high / 2^320.
#[derive(Clone, Debug)]
struct Bounds {
    low: Natural,
    high: Natural,
}

impl Bounds {
    /// The number itself.
    fn whole(number: u64) -> Self {
        let scaled = Natural::from(number).shifted_up(FRACTION);
        Bounds {
            low: scaled.clone(),
            high: scaled,
        }
    }

    /// A number of which is known only that it is at most a unit of the last place.
    fn at_most_a_unit() -> Self {
        Bounds {
            low: Natural::zero(),
            high: Natural::from(1),
        }
    }

    fn plus(&self, other: &Self) -> Self {
        Bounds {
            low: self.low.plus(&other.low),
            high: self.high.plus(&other.high),
        }
    }

    fn times(&self, other: &Self) -> Self {
        Bounds {
            low: self.low.times(&other.low).shifted_down(FRACTION),
            high: self
                .high
                .times(&other.high)
                .shifted_down(FRACTION)
                .plus(&Natural::from(1)),
        }
    }

    fn divided_by(&self, other: &Self) -> Self {
        let low = self.low.shifted_up(FRACTION).divided_by(&other.high);
        let high = self.high.shifted_up(FRACTION).divided_by(&other.low);
        Bounds {
            low,
            high: high.plus(&Natural::from(1)),
        }
    }

    /// The largest whole number not above 2^bits × the number.
    fn scaled_floor(&self, bits: usize) -> Natural {
        let low = self.low.shifted_up(bits).shifted_down(FRACTION);
        let high = self.high.shifted_up(bits).shifted_down(FRACTION);
        assert_eq!(low, high, "the bounds are close enough");
        low
    }
}

/// e^x for x from 0 to 1: the terms x^i / i!. Each term is less than half of the one before from
/// the third on, so that all terms left out come to no more than the last one taken.
fn exponential(x: &Bounds) -> Bounds {
    let mut sum = Bounds::whole(1);
    let mut term = Bounds::whole(1);
    for i in 1..=100 {
        term = term.times(x).divided_by(&Bounds::whole(i));
        sum = sum.plus(&term);
    }
    Bounds {
        high: sum.high.plus(&term.high),
        low: sum.low,
    }
}

/// e^(-v^2 / 2 sigma^2) for v below `length`: each from the one before, by a factor that changes by
/// the same factor each time.
fn bell(sigma: &Bounds, length: usize) -> Vec<Bounds> {
    let variance = sigma.times(sigma);
    let exponent = Bounds::whole(1).divided_by(&variance.plus(&variance));
    let mut factor = Bounds::whole(1).divided_by(&exponential(&exponent));
    let growth = factor.times(&factor);
    let mut values = vec![Bounds::whole(1)];
    while values.len() < length {
        values.push(values[values.len() - 1].times(&factor));
        factor = factor.times(&growth);
    }
    values
}

/// Source document 002, sections 2.1 and 4.1, sigma 6.15543: the probability of 0, and for each v
/// above it that of v and -v together, over all whole numbers.
fn shares_002() -> impl Iterator<Item = Bounds> {
    let sigma = Bounds::whole(615_543).divided_by(&Bounds::whole(100_000));
    // Beyond 200 every value is below 2^-700, and all of them together are below a unit.
    let values = bell(&sigma, 200);
    let both_signs: Vec<Bounds> = std::iter::once(values[0].clone())
        .chain(values[1..].iter().map(|value| value.plus(value)))
        .collect();
    let sum = both_signs
        .iter()
        .fold(Bounds::at_most_a_unit(), |sum, value| sum.plus(value));
    both_signs
        .into_iter()
        .map(move |value| value.divided_by(&sum))
}

/// Source document 002's curve with 128 columns: 87 rows (tail cut at 14 sigma), rounded down.
pub fn document_002() -> Matrix {
    const ROWS: usize = 87;
    const COLUMNS: usize = 128;
    let shares = shares_002().take(ROWS);
    let rows: Vec<Natural> = shares.map(|share| share.scaled_floor(COLUMNS)).collect();
    Matrix::from_values(COLUMNS, &rows)
}

/// The same curve with the 192 columns of 02, order 8, rounded down: all rows that are above 0, and
/// these are 100. The bounds still have 128 bits more than the last column.
pub fn document_002_fine() -> Matrix {
    const COLUMNS: usize = 192;
    let rows = shares_002().map(|share| share.scaled_floor(COLUMNS));
    let rows: Vec<Natural> = rows.take_while(|row| !row.is_zero()).collect();
    Matrix::from_values(COLUMNS, &rows)
}

/// Source document 001, sections 5.1 and 5.2: 1 / w with w the sum of 2^(-i^2), 128 columns; row v
/// is row 0 moved right by v^2 places, for v from 0 to 11.
pub fn document_001() -> Matrix {
    const COLUMNS: usize = 128;
    // 2^(-i^2) for i up to 17; all further ones together are below a unit.
    let sum = (0..=17).fold(Bounds::at_most_a_unit(), |sum, i: usize| {
        let value = Natural::power_of_two(FRACTION - i * i);
        sum.plus(&Bounds {
            low: value.clone(),
            high: value,
        })
    });
    let first = Bounds::whole(1).divided_by(&sum).scaled_floor(COLUMNS);
    let rows: Vec<Natural> = (0..12).map(|v| first.shifted_down(v * v)).collect();
    Matrix::from_values(COLUMNS, &rows)
}

/// Source document 004, table 5: the numbers at least v + 1 have probability `DOCUMENT_004[v]` /
/// 2^80.
const DOCUMENT_004: [&str; 10] = [
    "519416855270223991024635",
    "101208528248637278136991",
    "7893637264903720998210",
    "233884566914685871813",
    "2580077773372372849",
    "10517004221616016",
    "15796660852944",
    "8733832501",
    "1776829",
    "132",
];

/// Source document 004, table 5, as 11 rows of 80 columns: the differences of neighbours, from 2^80
/// down to 0.
pub fn document_004() -> Matrix {
    const COLUMNS: usize = 80;
    let mut edges = vec![Natural::power_of_two(COLUMNS)];
    edges.extend(
        DOCUMENT_004
            .iter()
            .map(|digits| Natural::from_decimal(digits)),
    );
    edges.push(Natural::zero());
    let rows: Vec<Natural> = edges
        .windows(2)
        .map(|pair| pair[0].minus(&pair[1]))
        .collect();
    Matrix::from_values(COLUMNS, &rows)
}

/// Source document 004, table 5, as a cumulative table of 63 bits (02, order 4): of each sum of
/// rows the first 63 of its 80 bits after the point. It has 12 numbers, from 0 to 2^63.
pub fn document_004_cut() -> Vec<u64> {
    let whole = document_004();
    let cut = |sum: Natural| sum.shifted_down(whole.columns - MOST_TABLE_COLUMNS);
    let numbers = sums(&whole).into_iter().map(cut);
    let numbers = numbers.map(|number| number.word().expect("at most 2^63"));
    numbers.collect()
}
