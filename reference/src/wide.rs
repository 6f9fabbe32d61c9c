//! 02, order 2: wide bells from four narrow ones, and how often each result comes up over all four
//! strings and signs.

use crate::lanes::{LANES, SIGNED_MISS};
use crate::matrix::Matrix;
use crate::natural::Natural;
use crate::refusal::{refuse, Answer, BIT, BUFFER, MULTIPLIER};
use std::collections::BTreeMap;

/// The most that a multiplier can be; the least is 1.
pub const MOST_MULTIPLIER: u32 = 1_000;
/// The largest signed sample; the smallest is its opposite.
pub const MOST_SAMPLE: i16 = 127;
/// The result of a lane with a miss.
pub const COMBINED_MISS: i32 = 2_147_483_647;

/// How many times each number comes up; those that never do are left out.
pub type Counts = BTreeMap<i64, Natural>;

/// Combining: a result for each lane of four lists, laid into a buffer of `results_lent` numbers.
pub fn combine(
    x1: &[i16],
    x2: &[i16],
    x3: &[i16],
    x4: &[i16],
    first: u32,
    second: u32,
    results_lent: usize,
) -> Answer<Vec<i32>> {
    let outside = |multiplier: u32| !(1..=MOST_MULTIPLIER).contains(&multiplier);
    refuse(MULTIPLIER, outside(first) || outside(second))?;
    let lists = [x1, x2, x3, x4];
    let short = lists.iter().any(|list| list.len() < LANES);
    refuse(BUFFER, short || results_lent < LANES)?;
    let lane = |j: usize| -> Answer<i32> {
        let mut entries = [None; 4];
        for (entry, list) in entries.iter_mut().zip(lists) {
            *entry = sample(list[j])?;
        }
        let result = combined(entries, first, second);
        Ok(result.map_or(COMBINED_MISS, |result| {
            i32::try_from(result).expect("at most 127 × 1,001 × 1,001 in size")
        }))
    };
    (0..LANES).map(lane).collect()
}

/// What an entry stands for: a number, or nothing for a miss.
fn sample(entry: i16) -> Answer<Option<i64>> {
    if entry == SIGNED_MISS {
        return Ok(None);
    }
    refuse(BIT, !(-MOST_SAMPLE..=MOST_SAMPLE).contains(&entry))?;
    Ok(Some(i64::from(entry)))
}

/// (x1 + first × x2) + second × (x3 + first × x4) multiplied out: each part has its own factor.
fn factors(first: u32, second: u32) -> [i64; 4] {
    let (first, second) = (i64::from(first), i64::from(second));
    [1, first, second, first * second]
}

/// The sum of the parts times their factors, or nothing where any of them is missing.
fn combined(parts: [Option<i64>; 4], first: u32, second: u32) -> Option<i64> {
    let each = parts.into_iter().zip(factors(first, second));
    each.map(|(part, factor)| Some(part? * factor)).sum()
}

/// How often a table gives each signed sample, over all strings with both signs: p_v times v and as
/// often -v, and zero, which both signs give, 2 × p_0 times.
pub fn signed_counts(matrix: &Matrix) -> Counts {
    let mut counts = Counts::new();
    for v in 0..matrix.rows {
        for sign in [1, -1] {
            add(&mut counts, sign * v as i64, &matrix.value(v));
        }
    }
    counts.retain(|_, times| !times.is_zero());
    counts
}

/// How often each result comes up, over all strings of the four tables with both signs each: for
/// every four samples the product of their counts, added up by what the four are combined to. Part
/// after part is taken in, so that of those that come to the same so far only the sum is kept.
pub fn result_counts(tables: [&Matrix; 4], first: u32, second: u32) -> Counts {
    let mut sums = Counts::from([(0, Natural::from(1))]);
    for (table, factor) in tables.into_iter().zip(factors(first, second)) {
        let mut next = Counts::new();
        for (x, often) in signed_counts(table) {
            for (sum, times) in &sums {
                add(&mut next, sum + factor * x, &times.times(&often));
            }
        }
        sums = next;
    }
    sums
}

/// How many of all choices of four strings and four signs have a miss: all but those with four hits.
pub fn combined_misses(tables: [&Matrix; 4]) -> Natural {
    let product = |each: fn(&Matrix) -> Natural| {
        let doubled = tables.iter().map(|table| each(table).shifted_up(1));
        doubled.fold(Natural::from(1), |product, factor| product.times(&factor))
    };
    let all = product(|table| Natural::power_of_two(table.columns));
    all.minus(&product(Matrix::total))
}

/// Counts a number so many times more.
fn add(counts: &mut Counts, number: i64, times: &Natural) {
    let held = counts.entry(number).or_default();
    *held = held.plus(times);
}
