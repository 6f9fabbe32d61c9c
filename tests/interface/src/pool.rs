//! The operations on a pool: pool_open, pool_draw, pool_refill. And 02, order 9: cases with numbers that are worked out by hand, and
//! sequences of calls, each on what the one before left, in which no word may go out twice.

use crate::inputs::{Stock, SIXTEEN_BITS};
use crate::memory::{Lent, Memory, View};
use crate::table::Table;
use crate::trial::{fail, must, Trial};
use reference::lent::{self, DONE};
use reference::pool::{Signer, MOST_SIGNERS};
use reference::pools::{self, Pool};
use reference::random::Random;

/// Records of a pool: what an opening and draws leave, and in half of the cases with a fault, or two.
fn some_pool(random: &mut Random) -> Pool {
    let mut pool = pools::drawn_from(random);
    for _ in 0..random.pick(&[0, 0, 1, 2]) {
        fault(random, &mut pool);
    }
    pool
}

/// One fault, or now and then so many records that 8 or 16 bits of their number are within.
fn fault(random: &mut Random, pool: &mut Pool) {
    if !random.once_in(100) {
        return pools::fault(random, pool);
    }
    let within = random.between(1, MOST_SIGNERS);
    let number = random.pick(&[256 + within, 256 + within, SIXTEEN_BITS + within]);
    pool.signers.resize(number, Signer::default());
}

/// What was drawn is anything in half of the cases: an opening does not look at it.
pub fn open(trial: &mut Trial, random: &mut Random, _: &Stock) {
    let mut pool = some_pool(random);
    if random.bit() == 1 {
        let any = |signer: &mut Signer| signer.drawn = random.word() as u32;
        pool.signers.iter_mut().for_each(any);
    }
    open_on(trial, random, &pool);
}

pub fn draw(trial: &mut Trial, random: &mut Random, _: &Stock) {
    let mut pool = pools::drawn_from(random);
    let (signer, q) = pools::request(random, &pool);
    for _ in 0..random.pick(&[0, 0, 0, 1, 2]) {
        fault(random, &mut pool);
    }
    draw_on(trial, random, &pool, signer, q);
}

pub fn refill(trial: &mut Trial, random: &mut Random, _: &Stock) {
    let pool = some_pool(random);
    refill_on(trial, random, &pool);
}

/// What a call leaves: the number that it returns, and the records.
type Left = (u32, Vec<Signer>);

fn open_on(trial: &mut Trial, random: &mut Random, pool: &Pool) -> Left {
    clear_on(trial, random, pool, lent::pool_open, |table| {
        table.pool_open
    })
}

fn refill_on(trial: &mut Trial, random: &mut Random, pool: &Pool) -> Left {
    clear_on(trial, random, pool, lent::pool_refill, |table| {
        table.pool_refill
    })
}

/// The type of the two functions that set what was drawn to 0.
type Clear = unsafe extern "C" fn(usize, *mut crate::corkhollow::Signer, usize) -> u32;

fn clear_on(
    trial: &mut Trial,
    random: &mut Random,
    pool: &Pool,
    by_reference: fn(usize, &mut [Signer]) -> u32,
    by_engine: fn(&Table) -> Clear,
) -> Left {
    let words = pool.words;
    let mut memory = Memory::new(random);
    memory.note("words", words as u64);
    let signers = memory.lend("signers", &pool.signers);
    let returned = trial.compare(
        &memory,
        // SAFETY, here and below: what is lent lies apart in the block, which lives as long as the call, and records have one layout.
        |view| unsafe { by_reference(words, view.slice_mut(signers)) },
        |table, view| unsafe {
            by_engine(table)(words, view.pointer(signers).cast(), signers.length)
        },
    );
    (returned, records(trial.left(), signers))
}

/// Draws, and tells the start too, as it is left.
fn draw_on(
    trial: &mut Trial,
    random: &mut Random,
    pool: &Pool,
    signer: usize,
    q: usize,
) -> (Left, usize) {
    let words = pool.words;
    let mut memory = Memory::new(random);
    memory.note("words", words as u64);
    memory.note("signer", signer as u64);
    memory.note("q", q as u64);
    let signers = memory.lend("signers", &pool.signers);
    let start = memory.number("start");
    let returned = trial.compare(
        &memory,
        |view| unsafe {
            let (signers, start) = (view.slice_mut(signers), view.number(start));
            lent::pool_draw(words, signers, signer, q, start)
        },
        |table, view| unsafe {
            (table.pool_draw)(
                words,
                view.pointer(signers).cast(),
                signers.length,
                signer,
                q,
                view.pointer(start),
            )
        },
    );
    let view = trial.left();
    let left = (returned, records(view, signers));
    // SAFETY: the block that is left lives, and nothing else uses it.
    (left, unsafe { *view.number(start) })
}

/// The records that a call left.
fn records(view: View, signers: Lent<Signer>) -> Vec<Signer> {
    // SAFETY: the block that is left lives, and nothing else uses it.
    unsafe { view.slice(signers).to_vec() }
}

/// An opening, and draws and refills, each on the records that the one before left. The words that go out are marked: none goes out twice
/// between refills, all come in order from word 0 on, and nobody has more than its cap.
pub fn sequence(trial: &mut Trial, random: &mut Random, _: &Stock) {
    let mut pool = pools::opening(random);
    let (returned, signers) = open_on(trial, random, &pool);
    must("pool_open of an opening", DONE, returned);
    pool.signers = signers;
    let mut marked = vec![false; pool.words];
    for _ in 0..random.between(1, 20) {
        if random.once_in(10) {
            let (returned, signers) = refill_on(trial, random, &pool);
            must("pool_refill of what draws leave", DONE, returned);
            pool.signers = signers;
            marked.fill(false);
        }
        let (signer, q) = pools::request(random, &pool);
        let ((returned, signers), start) = draw_on(trial, random, &pool, signer, q);
        if returned == DONE {
            mark(&mut marked, start, q);
            capped(&signers);
        } else {
            in_reserve_is_granted(&pool, signer, q);
        }
        pool.signers = signers;
    }
}

/// Marks the words that go out, which must be the next ones that are not marked.
fn mark(marked: &mut [bool], start: usize, q: usize) {
    let next = marked.iter().position(|&out| !out);
    let next = next.unwrap_or(marked.len());
    if start != next || start + q > marked.len() {
        let words = marked.len();
        fail(&format!(
            "pool_draw of {q} words starts at {start}: {next} is the next of {words}"
        ));
    }
    marked[start..start + q].fill(true);
}

fn capped(signers: &[Signer]) {
    if signers.iter().any(|signer| signer.drawn > signer.cap) {
        fail(&format!("pool_draw leaves draws above a cap: {signers:?}"));
    }
}

/// A draw that was refused would not have kept its signer within its reserve.
fn in_reserve_is_granted(pool: &Pool, signer: usize, q: usize) {
    let Some(own) = pool.signers.get(signer) else {
        return;
    };
    if q <= own.reserve.saturating_sub(own.drawn) as usize {
        fail(&format!("pool_draw of {q} words is refused to {own:?}"));
    }
}

/// Ends the tests where a function answers otherwise than 02 says.
pub fn compare() {
    let random = &mut Random::new(0);
    draws_are_granted(random);
    pools_are_refused(random);
    draws_are_refused(random);
    lengths_are_refused(random);
}

/// A signer, the words that it draws, and where they start, or the refusal.
type Step = (usize, usize, Result<usize, u32>);

/// On 12 words of which signers 0 and 1 are sure of 2 and 3, after one another; signer 1 may not have more than its 3.
const STEPS: [Step; 13] = [
    (2, 8, Err(19)), // would leave 4, and the others lack 5
    (2, 7, Ok(0)),
    (2, 1, Err(19)),
    (0, 3, Err(19)), // would leave 2, and signer 1 lacks 3
    (0, 2, Ok(7)),
    (0, 1, Err(19)),
    (1, 4, Err(18)),
    (1, 1, Ok(9)),
    (1, 2, Ok(10)),
    (1, 1, Err(18)),
    (0, 1, Err(19)), // none is left
    (0, 0, Ok(12)),
    (3, 0, Err(17)),
];

/// The steps twice, with a refill between, and at the end what each has drawn.
fn draws_are_granted(random: &mut Random) {
    let mut trial = Trial::new("pool_draw", 0);
    let mut pool = Pool::of(12, &[(2, 6, 7), (3, 3, u32::MAX), (0, 12, 1)]);
    let opened = open_on(&mut trial, random, &pool);
    for (returned, signers) in [opened, refill_on(&mut trial, random, &drawn_up(&pool))] {
        must("pool_open or pool_refill of 12 words", DONE, returned);
        pool.signers = signers;
        for (signer, q, wanted) in STEPS {
            let ((returned, signers), start) = draw_on(&mut trial, random, &pool, signer, q);
            let given = if returned == DONE {
                Ok(start)
            } else {
                Err(returned)
            };
            if given != wanted {
                let what = format!("pool_draw of {q} words for signer {signer}");
                fail(&format!("{what} gives {given:?}, and 02 says {wanted:?}"));
            }
            pool.signers = signers;
        }
        let drawn: Vec<u32> = pool.signers.iter().map(|signer| signer.drawn).collect();
        if drawn != [2, 3, 7] {
            fail(&format!("pool_draw leaves {drawn:?} as drawn"));
        }
    }
}

/// The pool as the steps leave it.
fn drawn_up(pool: &Pool) -> Pool {
    let mut pool = pool.clone();
    for (signer, drawn) in pool.signers.iter_mut().zip([2, 3, 7]) {
        signer.drawn = drawn;
    }
    pool
}

const TOP: u32 = u32::MAX;
const HALF: u32 = 1 << 31;

/// A pool's words and records, and the number that an opening returns, and that a refill, or a draw of nothing, does.
type Case = (usize, &'static [(u32, u32, u32)], u32, u32);

const CASES: [Case; 24] = [
    (0, &[], 3, 3),
    (9, &[], 3, 3),
    (9, &[(0, 0, 0); 16], 0, 0),
    (9, &[(0, 0, 0); 17], 3, 3),
    (0, &[(0, TOP, 0)], 0, 0),
    (65_536, &[(65_536, 65_536, 65_536)], 0, 0),
    (65_537, &[(0, 1, 0)], 3, 3),
    (1 << 32, &[(0, 1, 0)], 3, 3),
    ((1 << 32) + 5, &[(0, 1, 0)], 3, 3),
    (usize::MAX, &[(0, 1, 0)], 3, 3),
    // A reserve or what was drawn above the cap; an opening does not look at what was drawn.
    (9, &[(3, 2, 0), (0, 5, 0), (0, 5, 0)], 3, 3),
    (9, &[(0, 5, 0), (3, 2, 0), (0, 5, 0)], 3, 3),
    (9, &[(0, 5, 0), (0, 5, 0), (3, 2, 0)], 3, 3),
    (9, &[(0, 2, 3), (0, 5, 0)], 0, 3),
    (9, &[(0, 5, 0), (0, 2, 3)], 0, 3),
    // The words that are drawn, or lacked: 3 + 4 + 2.
    (9, &[(3, 9, 1), (0, 9, 4), (2, 9, 2)], 0, 0),
    (8, &[(3, 9, 1), (0, 9, 4), (2, 9, 2)], 0, 3),
    (4, &[(3, 9, 1), (0, 9, 4), (2, 9, 2)], 3, 3),
    // Sums of 33 bits and more.
    (5, &[(HALF, TOP, 0), (HALF, TOP, 0)], 3, 3),
    (5, &[(TOP, TOP, 0), (6, TOP, 0)], 3, 3),
    (5, &[(0, TOP, HALF), (0, TOP, HALF)], 0, 3),
    (5, &[(HALF, TOP, 0), (0, TOP, HALF)], 3, 3),
    (65_536, &[(1 << 28, TOP, 0); 16], 3, 3),
    (65_536, &[(0, TOP, TOP); 16], 0, 3),
];

fn pools_are_refused(random: &mut Random) {
    let mut trial = Trial::new("pool_open, pool_refill", 0);
    for (words, records, opened, refilled) in CASES {
        let what = format!("{words} words and {records:?}");
        let pool = Pool::of(words, records);
        let (returned, _) = open_on(&mut trial, random, &pool);
        must(&format!("pool_open of {what}"), opened, returned);
        let (returned, _) = refill_on(&mut trial, random, &pool);
        must(&format!("pool_refill of {what}"), refilled, returned);
        let ((returned, _), _) = draw_on(&mut trial, random, &pool, 0, 0);
        must(&format!("pool_draw of {what}"), refilled, returned);
    }
}

/// A draw: the words of the pool, the signer, q, and the number.
const REFUSED: [(usize, usize, usize, u32); 26] = [
    (10, 0, 3, 0),
    (10, 0, 4, 19),
    (10, 0, 5, 19),
    (10, 0, 6, 18),
    (19, 0, 5, 0),
    (19, 0, 6, 18),
    (19, 0, TOP as usize, 18),
    (19, 0, 1 << 32, 18),
    (19, 0, (1 << 32) + 1, 18),
    (19, 0, usize::MAX, 18),
    (19, 1, 10, 0),
    (19, 1, 11, 19),
    (19, 1, TOP as usize - 2, 19),
    (19, 1, TOP as usize - 1, 18),
    (19, 1, usize::MAX - 1, 18),
    (10, 3, 0, 17),
    (10, 3, 4, 17),
    (10, 3, 6, 17),
    (10, 15, 0, 17),
    (10, 1 << 32, 0, 17),
    (10, usize::MAX, usize::MAX, 17),
    (9, 0, 0, 3),
    (9, 0, 4, 3),
    (9, 0, 6, 3),
    (9, 3, 0, 3),
    (9, usize::MAX, usize::MAX, 3),
];

/// Signer 0 has 5 to its cap, and lacks 3; signer 1 lacks 1. Of 10 words 4 are left, and of 19 words 13.
fn draws_are_refused(random: &mut Random) {
    let mut trial = Trial::new("pool_draw", 0);
    for (words, signer, q, number) in REFUSED {
        let pool = Pool::of(words, &[(4, 6, 1), (3, TOP, 2), (0, 3, 3)]);
        let ((returned, _), _) = draw_on(&mut trial, random, &pool, signer, q);
        let what = format!("pool_draw of {q} of {words} words for signer {signer}");
        must(&what, number, returned);
    }
}

/// 1 to 16 records are taken and no other number, also not one of which 8 or 16 bits are within.
fn lengths_are_refused(random: &mut Random) {
    let mut trial = Trial::new("pool_open, pool_draw, pool_refill", 0);
    for number in (0..=40).chain([255, 256, 256 + 1, SIXTEEN_BITS, SIXTEEN_BITS + 16]) {
        let pool = Pool::of(40, &vec![(2, 3, 1); number]);
        let wanted = if (1..=16).contains(&number) { DONE } else { 3 };
        let (opened, _) = open_on(&mut trial, random, &pool);
        let ((drawn, _), _) = draw_on(&mut trial, random, &pool, 0, 2);
        let (refilled, _) = refill_on(&mut trial, random, &pool);
        for returned in [opened, drawn, refilled] {
            must(&format!("a pool of {number} records"), wanted, returned);
        }
    }
}
