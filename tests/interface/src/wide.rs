//! The operation on four lists of signed samples: combine.

use crate::inputs::{length, Stock, SIXTEEN_BITS};
use crate::memory::{Lent, Memory};
use crate::trial::Trial;
use reference::lanes::LANES;
use reference::lent;
use reference::random::{self, Random};
use reference::wide::MOST_MULTIPLIER;

/// The names of the lists.
const LISTS: [&str; 4] = ["x1", "x2", "x3", "x4"];

/// A list: sound, with an entry that is no signed sample, too short. In half of the longer ones what is not read is anything.
fn some_list(random: &mut Random) -> Vec<i16> {
    let length = length(random, LANES, 30);
    let mut list = random::signed_samples(random, length);
    if length > LANES && random.bit() == 1 {
        list[LANES..].fill_with(|| random.word() as i16);
    }
    if length > 0 && random.once_in(16) {
        let (any, read) = (random.below(length), length.min(LANES));
        let place = random.pick(&[0, read / 2, read - 1, any, any, length - 1]);
        list[place] = random::no_sample(random);
    }
    list
}

/// A multiplier: within, or outside, also one of which 16 or 31 bits are within.
fn some_multiplier(random: &mut Random) -> u32 {
    let within = random.between(1, MOST_MULTIPLIER as usize) as u32;
    let (most, wide, far) = (MOST_MULTIPLIER, SIXTEEN_BITS as u32, random.word() as u32);
    if random.once_in(12) {
        let top = 1 << 31;
        random.pick(&[
            0,
            most + 1,
            wide,
            wide + within,
            top + within,
            u32::MAX - within,
            far | top,
        ])
    } else {
        random.pick(&[within, within, within, 1, 2, 3, 11, most - 1, most])
    }
}

/// Once in some times one of the lists is another one too, or what follows in it: memory that is only read may overlap.
fn overlap(random: &mut Random, lists: &mut [Lent<i16>; 4]) {
    if random.once_in(8) {
        let (one, other) = (random.below(4), random.below(4));
        let more = lists[other].length.saturating_sub(LANES);
        let start = random.pick(&[0, more / 2, more]);
        lists[one] = lists[other].after(start);
    }
}

pub fn combine(trial: &mut Trial, random: &mut Random, _: &Stock) {
    let (first, second) = (some_multiplier(random), some_multiplier(random));
    let mut memory = Memory::new(random);
    memory.note("first", u64::from(first));
    memory.note("second", u64::from(second));
    let mut lists = LISTS.map(|name| memory.lend(name, &some_list(random)));
    overlap(random, &mut lists);
    let results = memory.room("results", length(random, LANES, 30));
    trial.compare(
        &memory,
        // SAFETY: the results lie apart from the lists in the block, which lives as long as the call.
        |view| unsafe {
            let [x1, x2, x3, x4] = lists.map(|list| view.slice(list));
            lent::combine(x1, x2, x3, x4, first, second, view.slice_mut(results))
        },
        |table, view| unsafe {
            let [x1, x2, x3, x4] = lists.map(|list| view.pointer(list));
            (table.combine)(
                x1,
                lists[0].length,
                x2,
                lists[1].length,
                x3,
                lists[2].length,
                x4,
                lists[3].length,
                first,
                second,
                view.pointer(results),
                results.length,
            )
        },
    );
}
