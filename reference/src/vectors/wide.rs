//! 02, order 2: four lists of signed samples combined; limits, misses, entries that are no samples,
//! and every refusal, alone and with each later one.

use super::cases::combine;
use super::line::Line;
use crate::compiler::translate;
use crate::damage::NO_SAMPLES;
use crate::draws::draw_signed;
use crate::lanes::{LANES, SIGNED_MISS};
use crate::random::{self, Random};
use crate::tables::document_002;
use crate::wide::MOST_MULTIPLIER;

/// The lists.
const LISTS: usize = 4;
/// The first lane, one in the middle, the last.
const PLACES: [usize; 3] = [0, 31, LANES - 1];
/// Multipliers outside, also ones of which 16 or 31 bits are within.
const OUTSIDE: [u32; 8] = [
    0,
    MOST_MULTIPLIER + 1,
    65_536,
    65_536 + 1,
    65_536 + MOST_MULTIPLIER,
    1 << 31,
    (1 << 31) + 1,
    u32::MAX,
];

/// What is given.
#[derive(Clone)]
struct Given {
    lists: [Vec<i16>; LISTS],
    first: u32,
    second: u32,
    results_lent: usize,
}

impl Given {
    /// Lists of which list i has `entry(i, j)` in lane j, with the multipliers of source document
    /// 002 and room for the results.
    fn new(entry: impl Fn(usize, usize) -> i16) -> Self {
        let list = |i| (0..LANES).map(|j| entry(i, j)).collect();
        Given {
            lists: [0, 1, 2, 3].map(list),
            first: 3,
            second: 11,
            results_lent: LANES,
        }
    }

    /// Every number from -127 to 127, and no miss.
    fn sound() -> Self {
        Given::new(|i, j| ((4 * j + i) % 255) as i16 - 127)
    }

    /// The same with other multipliers.
    fn times(&self, first: u32, second: u32) -> Self {
        let mut given = self.clone();
        (given.first, given.second) = (first, second);
        given
    }

    /// The same with another entry in a lane of a list.
    fn with(&self, list: usize, lane: usize, entry: i16) -> Self {
        let mut given = self.clone();
        given.lists[list][lane] = entry;
        given
    }

    /// The same with another length of a buffer: of one of the lists, or, beyond these, of the
    /// results. An entry that is added is no sample.
    fn long(&self, buffer: usize, length: usize) -> Self {
        let mut given = self.clone();
        match given.lists.get_mut(buffer) {
            Some(list) => list.resize(length, -128),
            None => given.results_lent = length,
        }
        given
    }

    fn line(&self) -> Line {
        let lists = self.lists.each_ref().map(Vec::as_slice);
        combine(lists, self.first, self.second, self.results_lent)
    }
}

/// The cases that are the same at every scale.
pub fn fixed(random: &mut Random, put: &mut dyn FnMut(Line)) {
    values(random, put);
    misses(put);
    multipliers(put);
    lengths(put);
    entries(put);
    order(put);
}

/// The largest and the smallest entries with the least and the most multipliers, each with each; and
/// batches drawn from the table of source document 002.
fn values(random: &mut Random, put: &mut dyn FnMut(Line)) {
    let pairs = [(127, -127), (1, -1), (127, 0), (0, -127)];
    let extremes = Given::new(|i, j| match (pairs[j / 16], j >> i & 1) {
        ((one, _), 0) => one,
        ((_, other), _) => other,
    });
    for first in [1, MOST_MULTIPLIER] {
        for second in [1, MOST_MULTIPLIER] {
            put(extremes.times(first, second).line());
        }
    }
    let program = translate(&document_002()).encode();
    for (first, second) in [(3, 11), (3, 11), (11, 3)] {
        let mut given = Given::sound().times(first, second);
        for list in &mut given.lists {
            let strings = random::packed_strings(random, 128, LANES);
            let drawn = draw_signed(&program, &strings, random.word(), LANES);
            *list = drawn.expect("the program is sound");
        }
        put(given.line());
    }
}

/// Lanes with every choice of lists that miss, lists of misses alone, and misses in all of them.
fn misses(put: &mut dyn FnMut(Line)) {
    let mut chosen = Given::sound();
    for (i, list) in chosen.lists.iter_mut().enumerate() {
        for lane in (0..LANES).filter(|lane| lane >> i & 1 == 1) {
            list[lane] = SIGNED_MISS;
        }
    }
    put(chosen.line());
    for i in 0..LISTS {
        let mut given = Given::sound();
        given.lists[i].fill(SIGNED_MISS);
        put(given.line());
    }
    let all = Given::new(|_, _| SIGNED_MISS);
    put(all.line());
    put(all.times(MOST_MULTIPLIER, MOST_MULTIPLIER).line());
}

/// Each multiplier at its limits and outside, where all else is sound, and where nothing is there.
fn multipliers(put: &mut dyn FnMut(Line)) {
    let sound = Given::sound();
    for within in [1, 2, MOST_MULTIPLIER - 1, MOST_MULTIPLIER] {
        put(sound.times(within, 11).line());
        put(sound.times(3, within).line());
    }
    for outside in [0, MOST_MULTIPLIER + 1, 65_536 + 3, u32::MAX] {
        put(sound.times(outside, 11).line());
        put(sound.times(3, outside).line());
    }
    let nothing = [&[][..]; LISTS];
    for outside in OUTSIDE {
        put(combine(nothing, outside, 11, 0));
        put(combine(nothing, 3, outside, 0));
        put(combine(nothing, outside, outside, LANES));
    }
    put(combine(nothing, 3, 11, 0));
    put(combine(nothing, MOST_MULTIPLIER, MOST_MULTIPLIER, LANES));
}

/// Each list and the results too short, and longer, with an entry there that is no sample.
fn lengths(put: &mut dyn FnMut(Line)) {
    let sound = Given::sound();
    for buffer in 0..=LISTS {
        for length in [0, LANES - 1, LANES + 1] {
            put(sound.long(buffer, length).line());
        }
    }
    let longer = (0..=LISTS).fold(sound, |given, buffer| given.long(buffer, LANES + 2));
    put(longer.line());
}

/// Entries at their limits in every list and at each of the places; and ones that are no samples,
/// each of them in every list, once with a miss in its lane.
fn entries(put: &mut dyn FnMut(Line)) {
    let sound = Given::sound();
    for (number, entry) in [-127, 127, SIGNED_MISS].into_iter().enumerate() {
        let mut given = sound.clone();
        for list in 0..LISTS {
            given = given.with(list, PLACES[(number + list) % 3], entry);
        }
        put(given.line());
    }
    for (number, &entry) in NO_SAMPLES.iter().enumerate() {
        for list in 0..LISTS {
            let lane = PLACES[(number + list) % 3];
            let mut given = sound.with(list, lane, entry);
            if number % LISTS == list {
                given = given.with((list + 1) % LISTS, lane, SIGNED_MISS);
            }
            put(given.line());
        }
    }
}

/// Each refusal with each that is tried after it: a multiplier, a length, an entry.
fn order(put: &mut dyn FnMut(Line)) {
    let sound = Given::sound();
    let unsound = |list: usize| sound.with(list, PLACES[list % 2], NO_SAMPLES[list]);
    let outside = [(0, 11), (3, 0), (1_001, 11), (3, 1_001)];
    for (list, (first, second)) in outside.into_iter().enumerate() {
        put(unsound(list).times(first, second).line());
        put(sound.long(list, LANES - 1).times(first, second).line());
    }
    put(sound.long(LISTS, LANES - 1).times(0, 0).line());
    for buffer in 0..=LISTS {
        for list in 0..LISTS {
            put(unsound(list).long(buffer, LANES - 1).line());
        }
    }
    put(unsound(3).long(0, 0).times(3, u32::MAX).line());
}

/// Every entry that is no sample at each of the places, and one of them in every lane.
pub fn thorough(put: &mut dyn FnMut(Line)) {
    let sound = Given::sound();
    for list in 0..LISTS {
        for lane in PLACES {
            for entry in NO_SAMPLES {
                put(sound.with(list, lane, entry).line());
            }
        }
        for lane in 0..LANES {
            put(sound.with(list, lane, 128).line());
            put(sound.with(list, lane, SIGNED_MISS).line());
        }
    }
}

/// Random cases: lists and multipliers of all kinds, and in half of the cases a fault, or two.
pub fn round(random: &mut Random, put: &mut dyn FnMut(Line)) {
    for _ in 0..10 {
        let mut given = Given {
            lists: [(); LISTS].map(|()| random::signed_samples(random, LANES)),
            first: multiplier(random),
            second: multiplier(random),
            results_lent: LANES + random.below(2),
        };
        for _ in 0..random.pick(&[0, 0, 1, 2]) {
            fault(random, &mut given);
        }
        put(given.line());
    }
}

/// A multiplier within: any, a small one, or one at the limits.
fn multiplier(random: &mut Random) -> u32 {
    let any = random.between(1, MOST_MULTIPLIER as usize) as u32;
    random.pick(&[any, any, 1, 2, 3, 11, MOST_MULTIPLIER])
}

/// A multiplier outside, a buffer one short or longer, or an entry that is no sample, also in the
/// last place.
fn fault(random: &mut Random, given: &mut Given) {
    let list = random.below(LISTS);
    match random.below(5) {
        0 => given.first = random.pick(&OUTSIDE),
        1 => given.second = random.pick(&OUTSIDE),
        2 => {
            let length = random.pick(&[LANES - 1, LANES - 1, LANES + 1, LANES + 2]);
            *given = given.long(random.below(LISTS + 1), length);
        }
        _ => {
            let any = random.below(LANES - 1);
            let lane = random.pick(&[any, any, given.lists[list].len() - 1]);
            given.lists[list][lane] = random::no_sample(random);
        }
    }
}
