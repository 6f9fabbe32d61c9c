//! 02, order 9, of every pool: the rules that it states, over all small pools and draws from all
//! openings, over all short sequences, and over random long ones.

use reference::lent;
use reference::pool::{draw, open, refill, Granted, Signer};
use reference::pools::{self, Pool};
use reference::random::Random;
use reference::refusal::Answer;
use std::collections::BTreeSet;

/// All reserves and caps of so many signers, each up to `most`.
fn all_signers(number: u32, most: u32) -> impl Iterator<Item = Vec<(u32, u32)>> {
    all_lists(2 * number, most).map(|list| list.chunks(2).map(|two| (two[0], two[1])).collect())
}

/// All lists of so many numbers up to `most`.
fn all_lists(length: u32, most: u32) -> impl Iterator<Item = Vec<u32>> {
    let base = most + 1;
    let digit = move |code: u32, at: u32| code / base.pow(at) % base;
    (0..base.pow(length)).map(move |code| (0..length).map(|at| digit(code, at)).collect())
}

/// The records of these reserves and caps, of which so much is drawn.
fn records(limits: &[(u32, u32)], drawn: &[u32]) -> Vec<Signer> {
    let each = limits.iter().zip(drawn);
    each.map(|(&(reserve, cap), &drawn)| Signer {
        reserve,
        cap,
        drawn,
    })
    .collect()
}

/// What each has drawn.
fn drawn_of(signers: &[Signer]) -> Vec<u32> {
    signers.iter().map(|signer| signer.drawn).collect()
}

/// What all have drawn.
fn all_drawn(signers: &[Signer]) -> usize {
    signers.iter().map(|signer| signer.drawn as usize).sum()
}

/// What a draw of a signer that there is comes to, in the words of 02, on records that are sound: the
/// start, 18 or 19.
fn by_sums(words: usize, signers: &[Signer], signer: usize, q: usize) -> Answer<usize> {
    let own = signers[signer];
    let lack = |other: &Signer| i128::from(other.reserve.saturating_sub(other.drawn));
    let all: i128 = signers.iter().map(lack).sum();
    let left = words as i128 - all_drawn(signers) as i128;
    if i128::from(own.drawn) + q as i128 > i128::from(own.cap) {
        Err(18)
    } else if left - (q as i128) < all - lack(&own) {
        Err(19)
    } else {
        Ok(all_drawn(signers))
    }
}

/// One draw on sound records, against 02: its answer; that a granted one hands out the words that
/// come next, within the buffer, adds them to its signer's and changes nothing else; that one which
/// stays within the reserve is granted; and that nobody is above a cap after it.
fn draw_is_right(words: usize, signers: &[Signer], signer: usize, q: usize) -> Answer<Granted> {
    let answer = draw(words, signers, signer, q);
    let start = answer.as_ref().map(|granted| granted.start);
    let what = || format!("{q} words of {words} for signer {signer} of {signers:?}");
    let wanted = by_sums(words, signers, signer, q);
    assert_eq!(start.map_err(|&number| number), wanted, "{}", what());
    let own = signers[signer];
    if q <= own.reserve.saturating_sub(own.drawn) as usize {
        assert!(answer.is_ok(), "{}", what());
    }
    let granted = answer?;
    assert!(granted.start + q <= words, "{}", what());
    let mut after = signers.to_vec();
    after[signer].drawn += q as u32;
    assert_eq!(granted.signers, after);
    assert!(after.iter().all(|signer| signer.drawn <= signer.cap));
    Ok(granted)
}

/// All records that draws leave, from an opening on: what each has drawn.
fn reached(words: usize, limits: &[(u32, u32)], most: u32) -> BTreeSet<Vec<u32>> {
    let Ok(opened) = open(words, &records(limits, &vec![u32::MAX; limits.len()])) else {
        return BTreeSet::new();
    };
    assert_eq!(drawn_of(&opened), vec![0; limits.len()]);
    let mut seen = BTreeSet::from([drawn_of(&opened)]);
    let mut next = vec![opened];
    while let Some(signers) = next.pop() {
        for signer in 0..signers.len() {
            // Of numbers up to the most, no draw of more is granted.
            for q in 0..=most as usize + 1 {
                let Ok(granted) = draw_is_right(words, &signers, signer, q) else {
                    continue;
                };
                if seen.insert(drawn_of(&granted.signers)) {
                    next.push(granted.signers);
                }
            }
        }
    }
    seen
}

/// By a search over all openings and draws: records of numbers up to `most` are refused with 3, by a
/// draw and by a refill, exactly where no opening and draws leave them. Answers how many are left.
fn refused_where_not_reached(number: u32, most: u32, most_words: usize) -> usize {
    let mut count = 0;
    for limits in all_signers(number, most) {
        for words in 0..=most_words {
            let seen = reached(words, &limits, most);
            count += seen.len();
            for drawn in all_lists(number, most) {
                let signers = records(&limits, &drawn);
                let refilled = refill(words, &signers);
                let nothing = draw(words, &signers, 0, 0);
                let wanted = match seen.contains(&drawn) {
                    true => Ok(records(&limits, &vec![0; number as usize])),
                    false => Err(3),
                };
                assert_eq!(refilled, wanted, "{words} words, {signers:?}");
                assert_eq!(nothing.map(|_| ()), wanted.map(|_| ()));
            }
        }
    }
    count
}

/// One signer with reserve r and cap c, r at most c: of W words at least r it can have drawn 0 to the
/// smaller of c and W. Of numbers up to 5 on up to 7 words these are counted here by themselves.
#[test]
fn records_of_one_signer_are_those_that_draws_leave() {
    let mut wanted = 0;
    for reserve in 0..=5usize {
        for cap in reserve..=5 {
            wanted += (reserve..=7).map(|words| 1 + cap.min(words)).sum::<usize>();
        }
    }
    assert_eq!(refused_where_not_reached(1, 5, 7), wanted);
}

/// Two signers, and three: where there are as many words as all caps, what each has drawn is any
/// number up to its cap, whatever the reserve.
#[test]
fn records_of_more_signers_are_those_that_draws_leave() {
    assert!(refused_where_not_reached(2, 4, 9) > 10_000);
    assert!(refused_where_not_reached(3, 3, 10) > 10_000);
    // Of a cap c there are c + 1 reserves, and as many numbers drawn: 1 + 4 + 9 + 16 for each signer.
    let mut roomy = 0;
    for limits in all_signers(3, 3) {
        roomy += reached(9, &limits, 3).len();
    }
    assert_eq!(roomy, 30 * 30 * 30);
}

/// What became of the words since the last refill: each that went out, once.
struct Map {
    out: Vec<bool>,
    next: usize,
}

impl Map {
    fn new(words: usize) -> Self {
        let out = vec![false; words];
        Map { out, next: 0 }
    }

    /// Notes words that go out: those that come next, each for the first time.
    fn note(&mut self, start: usize, q: usize) {
        assert_eq!(start, self.next, "no gap, and nothing twice");
        for word in &mut self.out[start..start + q] {
            assert!(!*word);
            *word = true;
        }
        self.next += q;
    }
}

/// All sequences of so many draws, of up to `most` words, and refills: the words that each hands out,
/// against those that went out since the last refill. Answers how many draws were granted.
fn follow(words: usize, signers: &[Signer], most: usize, steps: usize, out: &[bool]) -> usize {
    if steps == 0 {
        return 0;
    }
    let mut granted_draws = 0;
    for signer in 0..signers.len() {
        for q in 0..=most {
            let mut after = out.to_vec();
            let mut left = signers.to_vec();
            if let Ok(Granted { start, signers }) = draw(words, signers, signer, q) {
                let mut map = Map {
                    next: out.iter().filter(|&&word| word).count(),
                    out: after,
                };
                map.note(start, q);
                (after, left) = (map.out, signers);
                granted_draws += 1;
            }
            granted_draws += follow(words, &left, most, steps - 1, &after);
        }
    }
    let refilled = refill(words, signers).expect("records that draws leave");
    granted_draws + follow(words, &refilled, most, steps - 1, &vec![false; words])
}

/// Two signers on up to four words, each sequence of four calls.
#[test]
fn no_word_goes_out_twice_in_all_short_sequences() {
    let mut granted = 0;
    for limits in all_signers(2, 2) {
        for words in 0..=4 {
            if let Ok(opened) = open(words, &records(&limits, &[0, 0])) {
                granted += follow(words, &opened, 2, 4, &vec![false; words]);
            }
        }
    }
    assert!(granted > 100_000, "{granted}");
}

/// How often each answer of a draw was met.
#[derive(Default)]
struct Met {
    granted: usize,
    within_reserve: usize,
    refused: [usize; 20],
    refills: usize,
}

/// A long sequence from an opening on, each call on what the one before left.
fn sequence(random: &mut Random, steps: usize, met: &mut Met) {
    let mut pool = pools::opening(random);
    pool.signers = open(pool.words, &pool.signers).expect("an opening");
    let mut map = Map::new(pool.words);
    for _ in 0..steps {
        let (signer, q) = pools::request(random, &pool);
        if signer >= pool.signers.len() {
            assert_eq!(draw(pool.words, &pool.signers, signer, q), Err(17));
            met.refused[17] += 1;
            continue;
        }
        let own = pool.signers[signer];
        match draw_is_right(pool.words, &pool.signers, signer, q) {
            Ok(granted) => {
                map.note(granted.start, q);
                pool.signers = granted.signers;
                met.granted += 1;
                met.within_reserve += usize::from(q > 0 && own.drawn + q as u32 <= own.reserve);
            }
            Err(number) => met.refused[number as usize] += 1,
        }
        if random.once_in(12) {
            pool.signers = refill(pool.words, &pool.signers).expect("records that draws leave");
            assert_eq!(all_drawn(&pool.signers), 0);
            map = Map::new(pool.words);
            met.refills += 1;
        }
    }
}

/// Records that an opening and draws leave are never refused with 3: `draw_is_right` expects none.
#[test]
fn no_word_goes_out_twice_in_random_sequences() {
    let (mut random, mut met) = (Random::new(90), Met::default());
    for _ in 0..1_000 {
        let steps = random.between(1, 60);
        sequence(&mut random, steps, &mut met);
    }
    assert!(met.granted > 5_000 && met.within_reserve > 1_000);
    assert!(met.refills > 1_000, "{} refills", met.refills);
    for number in [17, 18, 19] {
        let times = met.refused[number];
        assert!(times > 1_000, "{number} is met {times} times");
    }
}

/// After an opening every signer can draw its whole reserve, in any order, whatever is drawn between.
#[test]
fn reserves_are_there_whatever_others_draw() {
    let mut random = Random::new(91);
    let mut drawn = 0;
    for _ in 0..1_000 {
        let mut pool = pools::drawn_from(&mut random);
        let mut waiting: Vec<usize> = (0..pool.signers.len()).collect();
        while !waiting.is_empty() {
            let signer = waiting.swap_remove(random.below(waiting.len()));
            let own = pool.signers[signer];
            let lack = own.reserve.saturating_sub(own.drawn) as usize;
            let granted = draw(pool.words, &pool.signers, signer, lack).expect("its own reserve");
            assert_eq!(granted.start, all_drawn(&pool.signers));
            pool.signers = granted.signers;
            drawn += lack;
        }
        assert_eq!(pool.claimed(), all_drawn(&pool.signers));
    }
    assert!(drawn > 100_000, "{drawn}");
}

/// Faults of all kinds: an answer other than 3 is one that the rules on sound records give.
#[test]
fn records_with_faults() {
    let mut random = Random::new(92);
    let (mut refused, mut taken) = (0, 0);
    for _ in 0..20_000 {
        let mut pool = pools::drawn_from(&mut random);
        let (signer, q) = pools::request(&mut random, &pool);
        for _ in 0..random.between(0, 2) {
            pools::fault(&mut random, &mut pool);
        }
        let answer = draw(pool.words, &pool.signers, signer, q);
        if is_sound(&pool) {
            taken += 1;
            let wanted = match signer < pool.signers.len() {
                true => by_sums(pool.words, &pool.signers, signer, q),
                false => Err(17),
            };
            assert_eq!(answer.map(|granted| granted.start), wanted);
        } else {
            refused += 1;
            assert_eq!(answer, Err(3), "{pool:?}");
        }
        assert_eq!(refill(pool.words, &pool.signers).is_ok(), is_sound(&pool));
        let mut opened = pool.clone();
        opened
            .signers
            .iter_mut()
            .for_each(|signer| signer.drawn = 0);
        assert_eq!(open(pool.words, &pool.signers).is_ok(), is_sound(&opened));
    }
    assert!(refused > 5_000 && taken > 5_000, "{refused} and {taken}");
}

/// The rule on records, by sums.
fn is_sound(pool: &Pool) -> bool {
    let within = |signer: &Signer| signer.reserve.max(signer.drawn) <= signer.cap;
    let number = (1..=16).contains(&pool.signers.len());
    let claims = pool
        .signers
        .iter()
        .map(|s| u64::from(s.reserve.max(s.drawn)));
    let words = pool.words <= 65_536 && claims.sum::<u64>() <= pool.words as u64;
    number && words && pool.signers.iter().all(within)
}

/// A granted draw changes the start and its signer's number; an opening and a refill the numbers; a
/// refusal nothing.
#[test]
fn lent_records_are_untouched_by_a_refusal() {
    let before = Pool::of(9, &[(2, 5, 1), (3, 9, 4), (0, 9, 0)]).signers;
    let draw = |words, signer, q| {
        let (mut signers, mut start) = (before.clone(), 77);
        let returned = lent::pool_draw(words, &mut signers, signer, q, &mut start);
        (returned, drawn_of(&signers), start)
    };
    assert_eq!(draw(9, 1, 3), (0, vec![1, 7, 0], 5));
    assert_eq!(draw(9, 2, 0), (0, vec![1, 4, 0], 5));
    assert_eq!(draw(5, 0, 0), (3, vec![1, 4, 0], 77));
    assert_eq!(draw(9, 3, 0), (17, vec![1, 4, 0], 77));
    assert_eq!(draw(9, 0, 5), (18, vec![1, 4, 0], 77));
    assert_eq!(draw(9, 1, 4), (19, vec![1, 4, 0], 77));
    for (change, least) in [
        (lent::pool_open as fn(usize, &mut [Signer]) -> u32, 5),
        (lent::pool_refill, 6),
    ] {
        let mut signers = before.clone();
        assert_eq!(change(least - 1, &mut signers), 3);
        assert_eq!(signers, before);
        assert_eq!(change(least, &mut signers), 0);
        assert_eq!(signers, records(&[(2, 5), (3, 9), (0, 9)], &[0, 0, 0]));
    }
}
