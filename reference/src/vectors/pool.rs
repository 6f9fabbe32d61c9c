//! 02, order 9: pools opened, drawn from and refilled; numbers of signers and of words at their
//! limits and outside; caps and reserves of any 32 bits; every rule on the records at its edge, and
//! every refusal, alone and with each later one.

use super::cases::{pool_draw, pool_open, pool_refill};
use super::line::Line;
use crate::pool::{draw, open, refill, Signer, MOST_WORDS};
use crate::pools::{self, Pool};
use crate::random::Random;

/// The largest cap, reserve or number drawn.
const TOP: u32 = u32::MAX;
/// 2^31: twice this is 0 in 32 bits.
const HALF: u32 = 1 << 31;

/// Three signers of which one has drawn less than its reserve, one more, and one has none. Of the
/// words 6 are drawn, and 3 are lacked.
const THREE: [(u32, u32, u32); 3] = [(4, 6, 1), (2, 20, 4), (0, 3, 1)];
/// The fewest words that these records can have.
const CLAIMED: usize = 9;

/// The cases that are the same at every scale.
pub fn fixed(put: &mut dyn FnMut(Line)) {
    story(put);
    numbers_of_signers(put);
    numbers_of_words(put);
    wide_caps(put);
    reserves(put);
    wide_sums(put);
    caps(put);
    claims(put);
    numbers_that_are_drawn(put);
    whose_numbers(put);
    refusals(put);
    what_is_left(put);
}

/// The three operations on one pool, with a draw of nothing.
fn each(pool: &Pool, put: &mut dyn FnMut(Line)) {
    put(pool_open(pool));
    put(pool_draw(pool, 0, 0));
    put(pool_refill(pool));
}

/// One after another, each on what the one before left: both draw, within their reserves and beyond,
/// and what the other lacks, or what is above a cap, is refused. After a refill all begins anew.
fn story(put: &mut dyn FnMut(Line)) {
    let mut pool = Pool::of(10, &[(4, 7, 9), (3, TOP, TOP)]);
    opened(&mut pool, put);
    for (signer, q) in [(1, 3), (0, 3), (1, 4), (1, 3), (0, 1), (0, 1), (0, 0)] {
        drawn(&mut pool, signer, q, put);
    }
    refilled(&mut pool, put);
    for (signer, q) in [(0, 7), (0, 1), (1, 4), (1, 3), (1, 0), (1, 1)] {
        drawn(&mut pool, signer, q, put);
    }
    refilled(&mut pool, put);
    refilled(&mut pool, put);
}

/// Puts an opening, and opens.
fn opened(pool: &mut Pool, put: &mut dyn FnMut(Line)) {
    put(pool_open(pool));
    if let Ok(signers) = open(pool.words, &pool.signers) {
        pool.signers = signers;
    }
}

/// Puts a draw, and draws.
fn drawn(pool: &mut Pool, signer: usize, q: usize, put: &mut dyn FnMut(Line)) {
    put(pool_draw(pool, signer, q));
    if let Ok(granted) = draw(pool.words, &pool.signers, signer, q) {
        pool.signers = granted.signers;
    }
}

/// Puts a refill, and refills.
fn refilled(pool: &mut Pool, put: &mut dyn FnMut(Line)) {
    put(pool_refill(pool));
    if let Ok(signers) = refill(pool.words, &pool.signers) {
        pool.signers = signers;
    }
}

/// Too few signers and too many, each sure of one word and with a cap of two; of the words none is
/// left over, and the last signer draws.
fn numbers_of_signers(put: &mut dyn FnMut(Line)) {
    for number in [0, 1, 2, 15, 16, 17, 20] {
        let pool = Pool::of(number, &vec![(1, 2, 0); number]);
        put(pool_open(&pool));
        put(pool_refill(&pool));
        for q in [1, 2] {
            put(pool_draw(&pool, number.saturating_sub(1), q));
        }
    }
}

/// Words at their limits and outside, also ones that 16 or 32 bits would take for sound. All of them
/// are drawn, and one more.
fn numbers_of_words(put: &mut dyn FnMut(Line)) {
    for words in [0, 1, MOST_WORDS - 1, MOST_WORDS] {
        let pool = Pool::of(words, &[(words as u32, TOP, 0)]);
        each(&pool, put);
        put(pool_draw(&pool, 0, words));
        put(pool_draw(&pool, 0, words + 1));
        each(&Pool::of(words, &[(0, TOP, words as u32), (0, 0, 0)]), put);
        put(pool_open(&Pool::of(words, &[(words as u32 + 1, TOP, 0)])));
    }
    let wide = [MOST_WORDS + 1, 2 * MOST_WORDS, 1 << 32, (1 << 32) + 5];
    for words in wide.into_iter().chain([(1 << 63) + 5, usize::MAX]) {
        each(&Pool::of(words, &[(5, 5, 0)]), put);
    }
}

/// Caps above W, and of all 32 bits: they leave a draw to the words.
fn wide_caps(put: &mut dyn FnMut(Line)) {
    let pool = Pool::of(4, &[(1, 5, 0), (0, TOP, 0), (2, HALF, 0)]);
    put(pool_open(&pool));
    for (signer, q) in [(0, 2), (0, 3), (0, 5), (0, 6), (1, 1), (1, 2), (2, 3)] {
        put(pool_draw(&pool, signer, q));
    }
    each(&Pool::of(0, &[(0, TOP, 0); 16]), put);
    put(pool_draw(&Pool::of(0, &[(0, TOP, 0); 16]), 15, 1));
}

/// Reserves that fill W, and one more.
fn reserves(put: &mut dyn FnMut(Line)) {
    for reserve in [6, 7, 8] {
        each(&Pool::of(10, &[(3, 3, 0), (reserve, 9, 0)]), put);
    }
    let mut records = [(4_096, 4_097, 0); 16];
    each(&Pool::of(MOST_WORDS, &records), put);
    each(&Pool::of(MOST_WORDS - 1, &records), put);
    records[15].0 += 1;
    each(&Pool::of(MOST_WORDS, &records), put);
}

/// Reserves, or what was drawn, that 32 bits would add up to 0, or to a little more.
fn wide_sums(put: &mut dyn FnMut(Line)) {
    let sums: [&[u32]; 6] = [
        &[HALF, HALF],
        &[TOP, 1],
        &[TOP, 6],
        &[3, TOP, TOP, 2, 1],
        &[1 << 28; 16],
        &[TOP; 16],
    ];
    for sum in sums {
        let reserved: Vec<_> = sum.iter().map(|&reserve| (reserve, TOP, 0)).collect();
        let drawn: Vec<_> = sum.iter().map(|&drawn| (0, TOP, drawn)).collect();
        put(pool_open(&Pool::of(5, &reserved)));
        put(pool_refill(&Pool::of(5, &reserved)));
        put(pool_draw(&Pool::of(MOST_WORDS, &reserved), 0, 0));
        each(&Pool::of(5, &drawn), put);
    }
    // One half is reserved, and one is drawn.
    let mixed = Pool::of(0, &[(HALF, TOP, 0), (0, TOP, HALF)]);
    put(pool_draw(&mixed, 0, 0));
    put(pool_refill(&mixed));
}

/// A reserve, or what was drawn, at its cap and one above it: at the first, a middle and the last
/// signer. An opening does not look at what was drawn.
fn caps(put: &mut dyn FnMut(Line)) {
    each(&Pool::of(100, &[(5, 5, 5); 5]), put);
    for place in [0, 2, 4] {
        for (reserve, drawn) in [(6, 5), (5, 6)] {
            let mut records = [(5, 5, 5); 5];
            (records[place].0, records[place].2) = (reserve, drawn);
            each(&Pool::of(100, &records), put);
        }
    }
    put(pool_open(&Pool::of(MOST_WORDS, &[(1, 0, 0)])));
    put(pool_refill(&Pool::of(MOST_WORDS, &[(0, 0, 1)])));
    put(pool_refill(&Pool::of(MOST_WORDS, &[(0, TOP - 1, TOP)])));
}

/// What all have drawn or lack, at W, and one word less or more.
fn claims(put: &mut dyn FnMut(Line)) {
    for words in [5, 6, CLAIMED - 1, CLAIMED, CLAIMED + 1] {
        each(&Pool::of(words, &THREE), put);
    }
}

/// What is drawn: nothing, up to the cap and above it, and numbers that 32 or 64 bits would take for
/// small, by themselves or with what was drawn before.
fn numbers_that_are_drawn(put: &mut dyn FnMut(Line)) {
    let pool = Pool::of(MOST_WORDS, &[(2, 5, 1), (2, TOP, 7), (0, HALF, 0)]);
    for q in [0, 1, 4, 5, TOP as usize, 1 << 32, (1 << 32) + 1] {
        put(pool_draw(&pool, 0, q));
    }
    put(pool_draw(&pool, 0, usize::MAX));
    for q in [TOP - 7, TOP - 6, TOP] {
        put(pool_draw(&pool, 1, q as usize));
    }
    for q in [1 << 32, 1 << 63, usize::MAX - 7, usize::MAX - 6] {
        put(pool_draw(&pool, 1, q));
    }
    for q in [HALF, HALF + 1, TOP] {
        put(pool_draw(&pool, 2, q as usize));
    }
}

/// Numbers of signers that three are, and that none is, also ones of which 8, 16, 32 or 63 bits are.
fn whose_numbers(put: &mut dyn FnMut(Line)) {
    let pool = Pool::of(20, &THREE);
    for signer in [0, 1, 2, 3, 4, 15, 16, 256, 65_536 + 1] {
        put(pool_draw(&pool, signer, 1));
    }
    for signer in [1 << 32, (1 << 32) + 2, 1 << 63, usize::MAX] {
        put(pool_draw(&pool, signer, 1));
    }
    let full = Pool::of(16, &[(1, 2, 0); 16]);
    for signer in [16, 17] {
        put(pool_draw(&full, signer, 1));
    }
}

/// 3, 17, 18 and 19, each alone and with those that are tried after it. Of THREE with one word more
/// than they claim, signer 0 has 5 to its cap and 4 that the others leave.
fn refusals(put: &mut dyn FnMut(Line)) {
    let (sound, roomy) = (Pool::of(CLAIMED + 1, &THREE), Pool::of(20, &THREE));
    for (signer, q) in [(0, 4), (0, 5), (0, 6), (3, 0), (3, 2), (3, 5), (3, 30)] {
        put(pool_draw(&sound, signer, q));
    }
    for (signer, q) in [(0, 5), (0, 6), (1, 11), (1, 12), (1, 16), (1, 17)] {
        put(pool_draw(&roomy, signer, q));
    }
    let mut unsound = [Pool::of(CLAIMED - 1, &THREE), roomy];
    unsound[1].signers[2].reserve = 4;
    for pool in unsound {
        for (signer, q) in [(0, 1), (0, 4), (0, 5), (0, 6), (3, 0), (3, usize::MAX)] {
            put(pool_draw(&pool, signer, q));
        }
    }
}

/// What the others leave to each signer, and one more; also where all else is drawn, so that one's
/// reserve is all that is left.
fn what_is_left(put: &mut dyn FnMut(Line)) {
    let mut pools = vec![Pool::of(CLAIMED + 2, &THREE), Pool::of(CLAIMED, &THREE)];
    pools.push(Pool::of(10, &[(3, 5, 0), (7, 7, 7)]));
    pools.push(Pool::of(10, &[(3, 5, 1), (2, 20, 7), (0, 9, 0)]));
    for pool in &pools {
        for signer in 0..pool.signers.len() {
            let left = pool.open_to(signer);
            put(pool_draw(pool, signer, left));
            put(pool_draw(pool, signer, left + 1));
        }
    }
    // 15 of 16 lack nothing and have drawn all but the 4,096 words of the other's reserve.
    for place in [0, 7, 15] {
        let mut records = [(2_048, TOP, 4_096); 16];
        records[place] = (4_096, 5_000, 0);
        let pool = Pool::of(MOST_WORDS, &records);
        for (signer, q) in [(place, 1), (place, 4_096), (place, 4_097), (8, 1)] {
            put(pool_draw(&pool, signer, q));
        }
    }
}

/// All records of one signer with numbers up to 3, and of two with numbers up to 1, on up to three
/// words, with every draw of up to two words, also by a signer that there is not.
pub fn thorough(put: &mut dyn FnMut(Line)) {
    for (number, base) in [(1, 4u32), (2, 2)] {
        for code in 0..base.pow(3 * number) {
            let digit = |at: u32| code / base.pow(at) % base;
            let record = |i: u32| (digit(3 * i), digit(3 * i + 1), digit(3 * i + 2));
            let records: Vec<_> = (0..number).map(record).collect();
            for words in 0..=3 {
                let pool = Pool::of(words, &records);
                put(pool_open(&pool));
                put(pool_refill(&pool));
                for signer in 0..=number as usize {
                    (0..=2).for_each(|q| put(pool_draw(&pool, signer, q)));
                }
            }
        }
    }
}

/// Random cases: openings, and on each draws and refills, one on what the other left; records with a
/// fault, or two.
pub fn round(random: &mut Random, put: &mut dyn FnMut(Line)) {
    for _ in 0..3 {
        let mut pool = pools::opening(random);
        let any = |signer: &mut Signer| signer.drawn = random.word() as u32;
        pool.signers.iter_mut().for_each(any);
        opened(&mut pool, put);
        for _ in 0..random.between(6, 10) {
            let (signer, q) = pools::request(random, &pool);
            drawn(&mut pool, signer, q, put);
            if random.once_in(6) {
                refilled(&mut pool, put);
            }
        }
    }
    for _ in 0..6 {
        let mut pool = pools::drawn_from(random);
        let (signer, q) = pools::request(random, &pool);
        for _ in 0..random.between(1, 2) {
            pools::fault(random, &mut pool);
        }
        put(pool_draw(&pool, signer, q));
        put(random.pick(&[pool_open, pool_refill])(&pool));
    }
}
