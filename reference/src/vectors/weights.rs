//! 02, order 5: lists of weights built for both uses, with room that is short and exact; weights of
//! which twice as much has 33 bits; every refusal, alone and with each later one; and what is drawn
//! of lists that are built for signed use.

use super::cases::{build, draws, walk};
use super::line::Line;
use super::sound::around;
use super::worked::{in_turn, EDGES};
use super::COLUMNS_BEFORE;
use crate::matrix::file_length;
use crate::random::{self, Random};
use crate::weights;

/// The largest weight, and the least of which twice as much has 33 bits.
const MOST: u32 = u32::MAX;
const HALF: u32 = 1 << 31;
/// The most weights.
const NUMBER: usize = 128;

/// Lists with their columns: one weight; 0 at the front, in the middle and at the end; a weight
/// that has all of S; quotients with a rest and without; weights up to the largest.
const LISTS: [(&[u32], usize); 25] = [
    (&[1], 1),
    (&[1], 128),
    (&[MOST], 128),
    (&[1, 1], 1),
    (&[2, 1], 2),
    (&[3, 1], 3),
    (&[0, 5], 3),
    (&[5, 0], 3),
    (&[0, 5], 128),
    (&[5, 0], 128),
    (&[1, 0, 3], 3),
    (&[0, 1, 1], 3),
    (&[0, 0, 1], 9),
    (&[1, 2, 0], 128),
    (&[8, 4, 2, 1, 1], 5),
    (&[8, 4, 2, 1, 1], 64),
    (&[0, HALF], 64),
    (&[1, HALF], 128),
    (&[HALF, HALF], 128),
    (&[HALF, 0, HALF], 65),
    (&[HALF - 1, HALF, HALF + 1], 127),
    (&[MOST, MOST], 63),
    (&[1, MOST, 1], 33),
    (&[0, MOST, 1], 32),
    (&[0, MOST, MOST], 128),
];

/// Both uses: plain, and signed.
const USES: [bool; 2] = [false, true];

/// The cases that are the same at every scale.
pub fn fixed(put: &mut dyn FnMut(Line)) {
    for (list, columns) in LISTS {
        let length = file_length(list.len(), columns);
        for signed in USES {
            put(build(list, columns, signed, length));
            put(build(list, columns, signed, length - 1));
        }
    }
    long_lists(put);
    refusals(put);
    drawn(put);
}

/// Lists of the most weights: all as large as can be, 0 alone or all but 0, the last alone, and
/// ones that rise and fall.
fn long_lists(put: &mut dyn FnMut(Line)) {
    let with = |weight: u32, at: usize, other: u32| {
        let mut list = vec![other; NUMBER];
        list[at] = weight;
        list
    };
    let each = |weight: fn(u32) -> u32| (0..NUMBER as u32).map(weight).collect();
    let lists: [(Vec<u32>, usize); 8] = [
        (vec![MOST; NUMBER], 127),
        (vec![HALF; NUMBER], 128),
        (with(MOST, 0, 0), 128),
        (with(0, 0, MOST), 128),
        (with(MOST, NUMBER - 1, 0), 65),
        (with(MOST, NUMBER - 1, 1), 7),
        (each(|v| v + 1), 64),
        (each(|v| MOST >> (v / 4)), 128),
    ];
    for (list, columns) in &lists {
        for signed in USES {
            put(build(list, *columns, signed, file_length(NUMBER, *columns)));
        }
    }
    let length = file_length(NUMBER, 128);
    for file_lent in [length - 1, length] {
        put(build(&[MOST; NUMBER], 128, true, file_lent));
    }
}

/// 3, 11 and 13, each with each that is tried after it. Those that the worked cases have for one
/// use are here for the other.
fn refusals(put: &mut dyn FnMut(Line)) {
    for file_lent in [0, 10, 12, 99] {
        put(build(&[1, 1, 1], 2, true, file_lent));
    }
    for file_lent in [0, 10, 11, 12, 99] {
        put(build(&[0, 0, 0], 2, true, file_lent));
    }
    for columns in EDGES {
        put(build(&[1, 2, MOST], columns, true, file_length(3, 128)));
        put(build(&[], columns, true, 0));
        put(build(&[0], columns, false, 0));
    }
    put(build(&[MOST; 129], 128, true, file_length(129, 128)));
    put(build(&[0; 129], 128, true, 0));
    for signed in USES {
        put(build(&[], 128, signed, 4_096));
        put(build(&[0; NUMBER], 128, signed, 0));
        put(build(&[1, 1], 129, signed, 0));
    }
}

/// The file of weights 1, 1, 1 for signed use walked on its four strings; and its strings, and
/// those of every list of several weights and so few columns that 64 lanes hold all of them with
/// both signs, drawn: in the lower lanes with one sign and in the upper lanes with the other.
fn drawn(put: &mut dyn FnMut(Line)) {
    let built = |list: &[u32], columns: usize| {
        let file = weights::build(list, columns, true, usize::MAX);
        file.expect("a list that can be built")
    };
    let distances = built(&[1, 1, 1], 2);
    for string in [0x00, 0x40, 0x80, 0xc0] {
        put(walk(&distances, &[string]));
    }
    let sign = u64::MAX << 32;
    put(draws(&distances, &in_turn(2), sign));
    for (list, columns) in LISTS {
        if list.len() > 1 && columns <= 5 {
            put(draws(&built(list, columns), &in_turn(columns), sign));
        }
    }
}

/// All lists of up to three weights up to 3, with 1 to 4 columns.
pub fn thorough(put: &mut dyn FnMut(Line)) {
    for number in 1..=3 {
        for case in 0..1 << (2 * number) {
            let list: Vec<u32> = (0..number).map(|v| case >> (2 * v) & 3).collect();
            for columns in 1..=4 {
                for signed in USES {
                    put(build(&list, columns, signed, 11));
                }
            }
        }
    }
}

/// Random cases: each list for both uses, with what is lent a little short, exact or long.
pub fn round(random: &mut Random, put: &mut dyn FnMut(Line)) {
    for case in 0..6 {
        let (any, columns) = random::sizes_within(random, COLUMNS_BEFORE);
        let number = if case == 0 { any } else { random.between(1, 9) };
        let list = random::distance_weights(random, number);
        for signed in USES {
            let file_lent = around(random, file_length(number, columns));
            put(build(&list, columns, signed, file_lent));
        }
    }
}
