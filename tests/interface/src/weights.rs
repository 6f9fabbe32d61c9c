//! The operation on weights: build. And 02, order 5: its cases with the numbers that stand there, and what is drawn of lists that are built
//! for signed use.

use crate::inputs::{length, outside, Stock, COLUMNS, SIXTEEN_BITS};
use crate::lanes::draw_signed_on;
use crate::matrices::compile_on;
use crate::memory::Memory;
use crate::trial::{fail, must, Trial};
use reference::compiler::translate;
use reference::lanes::{LANES, SIGNED_MISS};
use reference::lent::{self, DONE};
use reference::matrix::{decode, file_length, MOST_COLUMNS, MOST_ROWS};
use reference::random::{self, Random};
use std::collections::BTreeMap;

/// Both uses: plain, and signed.
const USES: [bool; 2] = [false, true];

/// A number of weights: mostly a small one.
fn some_number(random: &mut Random) -> usize {
    let (small, any) = (random.between(1, 9), random.between(1, MOST_ROWS));
    random.pick(&[small, small, small, small, any, 1, 127, 128])
}

/// A number of columns: a small one, any, or one at which something changes.
fn some_columns(random: &mut Random) -> usize {
    let (small, any) = (random.between(1, 9), random.between(1, MOST_COLUMNS));
    let edge = random.pick(&COLUMNS);
    random.pick(&[small, small, any, any, edge])
}

/// Weights: sound, all 0, none or too many.
fn some_weights(random: &mut Random) -> Vec<u32> {
    let number = some_number(random);
    let more = random.pick(&[200, 256 + number, SIXTEEN_BITS + number]);
    let refused = random.pick(&[0, 0, 0, MOST_ROWS + 1, MOST_ROWS + 1, MOST_ROWS + 1, more]);
    match random.below(12) {
        0 => vec![0; number],
        1 => vec![0; refused],
        2 => random::weights(random, refused),
        _ => random::distance_weights(random, number),
    }
}

/// Each list is built for both uses.
pub fn build(trial: &mut Trial, random: &mut Random, _: &Stock) {
    let weights = some_weights(random);
    let mut columns = some_columns(random);
    let needed = file_length(weights.len().min(MOST_ROWS), columns);
    if random.once_in(8) {
        columns = outside(random, MOST_COLUMNS);
    }
    for is_signed in USES {
        let file = length(random, needed, 5);
        build_on(trial, random, &weights, columns, is_signed, file);
    }
}

/// Builds into room for a file of so many bytes. Returns the file too.
pub fn build_on(
    trial: &mut Trial,
    random: &mut Random,
    weights: &[u32],
    columns: usize,
    is_signed: bool,
    file: usize,
) -> (u32, Vec<u8>) {
    let mut memory = Memory::new(random);
    memory.note("columns", columns as u64);
    memory.note("is_signed", u64::from(is_signed));
    let weights = memory.lend("weights", weights);
    let file = memory.room("file", file);
    let written = memory.number("length");
    let returned = trial.compare(
        &memory,
        // SAFETY: what is lent lies apart in the block, which lives as long as the call.
        |view| unsafe {
            let (file, written) = (view.slice_mut(file), view.number(written));
            lent::build(view.slice(weights), columns, is_signed, file, written)
        },
        |table, view| unsafe {
            (table.build)(
                view.pointer(weights),
                weights.length,
                columns,
                is_signed,
                view.pointer(file),
                file.length,
                view.pointer(written),
            )
        },
    );
    (returned, trial.laid(returned, file, written))
}

/// The largest weight, and the least of which twice as much has 33 bits.
const MOST: u32 = u32::MAX;
const HALF: u32 = 1 << 31;

/// A list with its columns, and the rows that it has for plain and for signed use, a byte each.
type Built = (&'static [u32], usize, &'static [u8], &'static [u8]);

/// Lists of few columns, with the rows that 02 says.
const BUILT: [Built; 12] = [
    (&[1, 1, 1], 2, &[0x40, 0x40, 0x40], &[0x00, 0x40, 0x40]),
    // One distance has all of S, and the largest row.
    (&[5], 3, &[0xe0], &[0xe0]),
    (&[MOST], 8, &[0xff], &[0xff]),
    (&[0, 5], 3, &[0x00, 0xe0], &[0x00, 0xe0]),
    (&[MOST, 0, 0], 8, &[0xff, 0x00, 0x00], &[0xff, 0x00, 0x00]),
    // 6 and 2 of 8; S is 5, and 24 / 5, 16 / 5 are 4 and 3.
    (&[3, 1], 3, &[0xc0, 0x40], &[0x80, 0x60]),
    // 8 / 3 and 4 / 3 are 2 and 1; S is 4, and 8 / 4 is 2 for both.
    (&[2, 1], 2, &[0x80, 0x40], &[0x80, 0x80]),
    // Halves; S is three times the weight, and 256 / 3 is 0x55, 512 / 3 is 0xaa.
    (&[1, 1], 8, &[0x80, 0x80], &[0x55, 0xaa]),
    (&[HALF, HALF], 8, &[0x80, 0x80], &[0x55, 0xaa]),
    (&[MOST, MOST], 8, &[0x80, 0x80], &[0x55, 0xaa]),
    // A third of 256 for each, and 256 / 5 and 512 / 5.
    (&[MOST; 3], 8, &[0x55; 3], &[0x33, 0x66, 0x66]),
    // Of 0 nothing, of the others a half each for both uses.
    (
        &[0, MOST, MOST],
        8,
        &[0x00, 0x80, 0x80],
        &[0x00, 0x80, 0x80],
    ),
];

/// Lists with their columns, and the number that they are refused with for both uses, however much room there is.
const REFUSED: [(&[u32], usize, u32); 13] = [
    (&[], 2, 3),
    (&[0; 129], 2, 3),
    (&[MOST; 129], 2, 3),
    (&[1, 1, 1], 0, 3),
    (&[1, 1, 1], 193, 3),
    (&[1, 1, 1], (1 << 32) + 2, 3),
    (&[0, 0], 0, 3),
    (&[0, 0], 193, 3),
    (&[0], 3, 11),
    (&[0, 0], 3, 11),
    (&[0; 128], 128, 11),
    (&[0, 0], 129, 11),
    (&[0; 128], 192, 11),
];

/// Ends the tests where a function answers otherwise than 02 says.
pub fn compare() {
    let random = &mut Random::new(0);
    lists_are_built(random);
    the_largest_are_built(random);
    lists_are_refused(random);
    small_lists_are_drawn(random);
}

/// A matrix file of rows of so many bytes together.
pub fn file_of(rows: usize, columns: usize, bytes: &[u8]) -> Vec<u8> {
    let fields = [8 + bytes.len(), 32, rows, columns];
    let header = fields.map(|field| [field as u8, (field >> 8) as u8]);
    [header.as_flattened(), bytes].concat()
}

/// Builds with exactly the room that the file takes, and ends the tests where it is another.
fn built(trial: &mut Trial, random: &mut Random, list: (&[u32], usize, bool), wanted: Vec<u8>) {
    let (weights, columns, is_signed) = list;
    let left = build_on(trial, random, weights, columns, is_signed, wanted.len());
    if left != (DONE, wanted) {
        let what = format!("{weights:?} with n = {columns} and is_signed = {is_signed}");
        fail(&format!("build of {what} leaves {left:02x?}: not 02's"));
    }
}

/// Each list, and where one byte of room is missing 13.
fn lists_are_built(random: &mut Random) {
    let mut trial = Trial::new("build", 0);
    for (weights, columns, plain, signed) in BUILT {
        for (is_signed, rows) in [(false, plain), (true, signed)] {
            let file = file_of(weights.len(), columns, rows);
            let short = file.len() - 1;
            built(&mut trial, random, (weights, columns, is_signed), file);
            let (number, _) = build_on(&mut trial, random, weights, columns, is_signed, short);
            must("build with a byte less", 13, number);
        }
    }
}

/// 128 of the largest weights: for plain use 2^n / 128 each. For signed use S is 255 times the weight, and 255 × 0101..01 is 2^n - 1, with
/// 128 columns and with 192: row 0 is 0101..01, the others are 0202..02. Without that of 0, and with 7 columns, every other row is
/// 128 × 2 / 254, cut to 1.
fn the_largest_are_built(random: &mut Random) {
    let mut trial = Trial::new("build", 0);
    for width in [16, 24] {
        let columns = 8 * width;
        let part = [&[0x02][..], &vec![0x00; width - 1]].concat();
        let plain = file_of(128, columns, &part.repeat(128));
        built(&mut trial, random, (&[MOST; 128], columns, false), plain);
        let rows = [vec![0x01; width], vec![0x02; 127 * width]].concat();
        let signed = file_of(128, columns, &rows);
        built(&mut trial, random, (&[MOST; 128], columns, true), signed);
    }
    let mut others = [MOST; 128];
    others[0] = 0;
    let rows = [&[0x00][..], &[0x02; 127]].concat();
    for is_signed in USES {
        let file = file_of(128, 7, &rows);
        built(&mut trial, random, (&others, 7, is_signed), file);
    }
}

fn lists_are_refused(random: &mut Random) {
    let mut trial = Trial::new("build", 0);
    for (weights, columns, number) in REFUSED {
        for is_signed in USES {
            for file in [0, 8, 4_096] {
                let returned = build_on(&mut trial, random, weights, columns, is_signed, file);
                let what = format!("build of {weights:?} with n = {columns}");
                must(&what, number, returned.0);
            }
        }
    }
}

/// All lists of up to three weights up to 3, with 1 to 4 columns.
fn small_lists_are_drawn(random: &mut Random) {
    let mut trial = Trial::new("build, draw ..", 0);
    for number in 1..=3 {
        for case in 1..1 << (2 * number) {
            let weights: Vec<u32> = (0..number).map(|v| case >> (2 * v) & 3).collect();
            for columns in 1..=4 {
                all_strings_are_drawn(&mut trial, random, &weights, columns);
            }
        }
    }
}

/// Some list of few columns.
pub fn draws(trial: &mut Trial, random: &mut Random, _: &Stock) {
    let (few, any) = (random.between(1, 9), random.between(1, MOST_ROWS));
    let number = random.pick(&[few, few, few, few, few, few, any, MOST_ROWS]);
    let columns = random.between(1, 8);
    let mut weights = random::distance_weights(random, number);
    if weights.iter().all(|&weight| weight == 0) {
        weights[0] = 1;
    }
    all_strings_are_drawn(trial, random, &weights, columns);
}

/// How often a value comes.
type Counts = BTreeMap<i16, u64>;

/// Builds a list for signed use, compiles it and draws all its strings with both signs. Ends the tests where a value comes otherwise than
/// 02 says of the weights.
fn all_strings_are_drawn(trial: &mut Trial, random: &mut Random, weights: &[u32], columns: usize) {
    let room = file_length(weights.len(), columns);
    let (number, file) = build_on(trial, random, weights, columns, true, room);
    must("build of a list to be drawn", DONE, number);
    let needed = decode(&file).map_or(0, |matrix| translate(&matrix).length());
    let (number, program) = compile_on(trial, random, &file, needed);
    must("compile of what was built", DONE, number);
    let mut came = Counts::new();
    for first in (0..1 << columns).step_by(LANES) {
        let string = |lane: usize| ((first + lane) << (8 - columns)) as u8;
        let batch: Vec<u8> = (0..LANES).map(string).collect();
        let sign = random.word();
        for sign in [sign, !sign] {
            let (number, samples) = draw_signed_on(trial, random, &program, &batch, sign, LANES);
            must("draw_signed of what was compiled", DONE, number);
            for sample in samples {
                *came.entry(sample).or_default() += 1;
            }
        }
    }
    values_are_due(weights, columns, &came);
}

/// Compares how often each value came with what 02 says, by the weights alone: of all strings with both signs a value other than 0 comes p
/// of its distance times, 0 twice p_0 times, and all others miss. So each comes in proportion to its weight: with S what all values weigh,
/// and c times of 2^(n+1), 2^(n+1) × w is from c × S to (c + 2) × S.
fn values_are_due(weights: &[u32], columns: usize, came: &Counts) {
    let last = weights.len() as i16 - 1;
    let weight = |value: i16| u64::from(weights[usize::from(value.unsigned_abs())]);
    let sum: u64 = (-last..=last).map(weight).sum();
    // With fewer strings than lanes, each string was in so many of them.
    let (strings, lanes) = (1 << columns, (LANES as u64 >> columns).max(1));
    let wrong = |what: &str| {
        let list = format!("{weights:?} with n = {columns}");
        fail(&format!("{what} of {list}, drawn {came:?}: not 02's"))
    };
    let times_of = |value: i16| came.get(&value).copied().unwrap_or(0);
    let mut left = 2 * strings * lanes;
    for value in -last..=last {
        let times = times_of(value);
        let row = |weight: u64| (strings * weight / sum).min(strings - 1);
        let due = match value {
            0 => 2 * row(weight(0)),
            _ => row(2 * weight(value)),
        };
        let share = 2 * strings * lanes * weight(value);
        if times != due * lanes || times * sum > share || share > (times + 2 * lanes) * sum {
            wrong(&format!("{times} times {value}"));
        }
        left -= times;
    }
    if times_of(SIGNED_MISS) != left {
        wrong("misses");
    }
}
