//! Pools for tests (02, order 9): openings, what is asked of them, and records that none can have.

use crate::pool::{Signer, MOST_SIGNERS, MOST_WORDS};
use crate::random::Random;

/// A buffer's words, and the records of those who draw from it.
#[derive(Clone, Debug)]
pub struct Pool {
    pub words: usize,
    pub signers: Vec<Signer>,
}

impl Pool {
    /// A pool of so many words with these records: reserve, cap and what was drawn.
    pub fn of(words: usize, records: &[(u32, u32, u32)]) -> Self {
        let signer = |&(reserve, cap, drawn): &(u32, u32, u32)| Signer {
            reserve,
            cap,
            drawn,
        };
        let signers = records.iter().map(signer).collect();
        Pool { words, signers }
    }

    /// What all together have drawn, or still lack of their reserves.
    pub fn claimed(&self) -> usize {
        let larger = |signer: &Signer| signer.reserve.max(signer.drawn) as usize;
        self.signers.iter().map(larger).sum()
    }

    /// The most words that this signer can draw, its cap aside; 0 where they are not there for all.
    pub fn open_to(&self, signer: usize) -> usize {
        let own = self.signers[signer];
        let others = self.claimed() - own.reserve.max(own.drawn) as usize;
        self.words.saturating_sub(others + own.drawn as usize)
    }
}

/// The words of a buffer: few, any, or next to a limit.
fn some_words(random: &mut Random) -> usize {
    let (few, any) = (random.between(0, 40), random.between(0, MOST_WORDS));
    let edge = random.pick(&[0, 1, MOST_WORDS - 1, MOST_WORDS]);
    random.pick(&[few, few, few, any, any, edge])
}

/// An opening that is granted, of which nothing is drawn yet. The reserves part the words, or some of
/// them, at random places, or are all 0; a cap is its reserve, a little or any amount above it, or
/// above all words.
pub fn opening(random: &mut Random) -> Pool {
    let words = some_words(random);
    let (few, any) = (random.between(1, 4), random.between(1, MOST_SIGNERS));
    let number = random.pick(&[few, few, any, any, MOST_SIGNERS]);
    let some = random.between(0, words);
    let reserved = random.pick(&[words, words, some, some, 0]);
    let mut edges: Vec<usize> = (1..number).map(|_| random.between(0, reserved)).collect();
    edges.extend([0, reserved]);
    edges.sort_unstable();
    let reserves = edges.windows(2).map(|pair| (pair[1] - pair[0]) as u32);
    let mut signer = |reserve: u32| {
        let (little, any) = (random.below(9) as u32, random.below(MOST_WORDS) as u32);
        let more = random.pick(&[0, little, little, any, 1 << 31, u32::MAX - reserve]);
        Signer {
            reserve,
            cap: reserve + more,
            drawn: 0,
        }
    };
    Pool {
        words,
        signers: reserves.map(&mut signer).collect(),
    }
}

/// The same after some draws, each of all that there is for its signer, or of a part of it.
pub fn drawn_from(random: &mut Random) -> Pool {
    let mut pool = opening(random);
    let number = pool.signers.len();
    for _ in 0..random.below(2 * number + 1) {
        let signer = random.below(number);
        let Signer { cap, drawn, .. } = pool.signers[signer];
        let most = pool.open_to(signer).min((cap - drawn) as usize);
        let some = random.between(0, most);
        let q = random.pick(&[some, some, some, most, most.min(3)]);
        pool.signers[signer].drawn += q as u32;
    }
    // Now and then the words are as many as are drawn or lacked, and no more.
    if random.once_in(4) {
        pool.words = pool.claimed();
    }
    pool
}

/// What is asked of a pool that has signers: the number of one, and how many words.
pub fn request(random: &mut Random, pool: &Pool) -> (usize, usize) {
    let signer = random.below(pool.signers.len());
    let q = some_draw(random, pool, signer);
    (some_signer(random, signer, pool.signers.len()), q)
}

/// A number of words: few, or as many as the cap, the reserve, the others or the buffer leave, or one
/// more, or some below; or one that 32 or 64 bits would take for small.
fn some_draw(random: &mut Random, pool: &Pool, signer: usize) -> usize {
    let own = pool.signers[signer];
    let to_cap = own.cap.saturating_sub(own.drawn) as usize;
    let lack = own.reserve.saturating_sub(own.drawn) as usize;
    let open = pool.open_to(signer).min(MOST_WORDS);
    let edge = random.pick(&[to_cap, to_cap, lack, open, open, MOST_WORDS]);
    let (few, within) = (random.below(4), random.between(0, edge));
    let back = 0usize.wrapping_sub(own.drawn as usize);
    let far = random.pick(&[1 << 32, (1 << 32) + few, back, usize::MAX]);
    match random.below(24) {
        0..=6 => few,
        7..=12 => within,
        13..=17 => edge,
        18..=22 => edge + 1,
        _ => far,
    }
}

/// This signer, or once in some times a number that is none's, also one of which 32 bits are one's.
fn some_signer(random: &mut Random, signer: usize, number: usize) -> usize {
    if !random.once_in(10) {
        return signer;
    }
    let wide = (1 << 32) + signer;
    random.pick(&[number, number, number + 1, 255, wide, wide, usize::MAX])
}

/// A field that adds to what a signer claims.
type Field = fn(&mut Signer) -> &mut u32;
const FIELDS: [Field; 2] = [|signer| &mut signer.reserve, |signer| &mut signer.drawn];

/// Breaks one rule on a pool, mostly by as little as it can be.
pub fn fault(random: &mut Random, pool: &mut Pool) {
    let (number, claimed) = (pool.signers.len(), pool.claimed());
    let place = random.pick(&[0, number / 2, number.saturating_sub(1)]);
    let field = random.pick(&FIELDS);
    match random.below(7) {
        0 => pool.words = words_outside(random, pool.words),
        1 => {
            let outside = random.pick(&[0, MOST_SIGNERS + 1, MOST_SIGNERS + 1, MOST_SIGNERS + 4]);
            pool.signers.resize(outside, Signer::default());
        }
        2 | 3 => pool.words = claimed.saturating_sub(random.pick(&[1, 1, 2, claimed])),
        _ if number == 0 => {}
        4 => above_the_cap(random, field, &mut pool.signers[place]),
        5 => {
            let beyond = (pool.words.min(MOST_WORDS) + 1).saturating_sub(claimed);
            let own = &mut pool.signers[place];
            let more = field(own).saturating_add(beyond as u32);
            *field(own) = more;
            own.cap = own.cap.max(more);
        }
        _ => sum_of_33_bits(field, &mut pool.signers),
    }
}

/// A number of words above the most, also one of which 32 or 63 bits are within.
fn words_outside(random: &mut Random, within: usize) -> usize {
    let within = within.min(MOST_WORDS);
    random.pick(&[
        MOST_WORDS + 1,
        MOST_WORDS + 1,
        2 * MOST_WORDS,
        1 << 32,
        (1 << 32) + within,
        (1 << 63) + within,
        usize::MAX - within,
        usize::MAX,
    ])
}

/// A reserve, or what was drawn, becomes larger than the cap, by one or by any amount.
fn above_the_cap(random: &mut Random, field: Field, signer: &mut Signer) {
    let more = random.pick(&[1, 1, 1, 1 << 16, 1 << 31]);
    signer.cap = signer.cap.min(u32::MAX - 1);
    *field(signer) = signer.cap.saturating_add(more);
}

/// Reserves, or what was drawn, that add up to 2^32, or to a little more.
fn sum_of_33_bits(field: Field, signers: &mut [Signer]) {
    let share = (1u64 << 32).div_ceil(signers.len() as u64);
    let share = u32::try_from(share).unwrap_or(u32::MAX);
    for signer in signers {
        *field(signer) = share;
        signer.cap = signer.cap.max(share);
    }
}
