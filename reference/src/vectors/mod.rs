//! Test vectors: lines of an operation, its inputs, and what it must answer and lay down. README.md
//! says how to read them.

pub mod answer;
pub mod cases;
mod columns;
mod cumulative;
mod damaged;
mod foreign;
mod instructions;
pub mod line;
mod pool;
mod rows;
mod runs;
mod sound;
mod wanted;
mod weights;
mod wide;
mod worked;

use crate::random::Random;
use line::Line;

/// No line is longer than this, with its end.
pub const LONGEST_LINE: usize = 12_288;

/// The seed from which all random cases come.
const SEED: u64 = 0x0c02_b401_1077;

/// The most columns, and inputs, before 02, order 8. The cases that were made then keep to them, so
/// that every line stays what it was; `columns` and `instructions` have those above.
const COLUMNS_BEFORE: usize = 128;
/// The most instructions before it, likewise.
const INSTRUCTIONS_BEFORE: usize = 131_072;

/// What is left of the sign `=` in every vector, in order: the fixed cases, with more of them where
/// `scale` is above 1, and as many rounds of random cases as `scale` says.
pub fn each_given(scale: usize, mut visit: impl FnMut(&str)) {
    let mut put = |line: Line| visit(&line.to_string());
    worked::fixed(&mut put);
    damaged::fixed(&mut put);
    foreign::fixed(&mut put);
    runs::fixed(&mut put);
    sound::fixed(&mut Random::new(SEED), &mut put);
    wide::fixed(&mut Random::new(SEED), &mut put);
    cumulative::fixed(&mut Random::new(SEED), &mut put);
    weights::fixed(&mut put);
    wanted::fixed(&mut Random::new(SEED), &mut put);
    columns::fixed(&mut Random::new(SEED), &mut put);
    instructions::fixed(&mut Random::new(SEED), &mut put);
    pool::fixed(&mut put);
    rows::fixed(&mut put);
    if scale > 1 {
        damaged::thorough(&mut put);
        foreign::thorough(&mut put);
        runs::thorough(&mut put);
        wide::thorough(&mut put);
        cumulative::thorough(&mut put);
        weights::thorough(&mut put);
        wanted::thorough(&mut put);
        columns::thorough(&mut put);
        instructions::thorough(&mut put);
        pool::thorough(&mut put);
        rows::thorough(&mut put);
    }
    for round in 1..=scale {
        let random = &mut Random::new(SEED + round as u64);
        sound::round(random, &mut put);
        runs::round(random, &mut put);
        damaged::round(random, &mut put);
        wide::round(random, &mut put);
        cumulative::round(random, &mut put);
        weights::round(random, &mut put);
        wanted::round(random, &mut put);
        columns::round(random, &mut put);
        instructions::round(random, &mut put);
        pool::round(random, &mut put);
        rows::round(random, &mut put);
    }
}
