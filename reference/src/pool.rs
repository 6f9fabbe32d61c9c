//! 02, order 9: one buffer of words that several signers draw from.
//!
//! The words that nobody has drawn are one stretch of the buffer. A draw takes words off its front;
//! what signers lack of their reserves is set aside at its end, one signer after another. What the
//! stretch can not give is refused: no sum is compared with anything.

use crate::refusal::{refuse, Answer, CAP, RESERVE, SIGNER, SIZE};

/// The most signers of a pool; the fewest is 1.
pub const MOST_SIGNERS: usize = 16;
/// The most words of its buffer; the fewest is 0.
pub const MOST_WORDS: usize = 65_536;

/// What a pool knows of one signer, in the order and the sizes of the C interface.
#[derive(Clone, Copy, Debug, Default, PartialEq, Eq, Hash)]
#[repr(C)]
pub struct Signer {
    /// The words that it is sure of.
    pub reserve: u32,
    /// The most words that it may draw.
    pub cap: u32,
    /// The words that it has drawn since the opening, or the last refill.
    pub drawn: u32,
}

impl Signer {
    /// What it still lacks of its reserve.
    fn lack(&self) -> u128 {
        u128::from(self.reserve.saturating_sub(self.drawn))
    }
}

/// What a granted draw comes to.
#[derive(Clone, Debug, PartialEq, Eq)]
pub struct Granted {
    /// The first of its words.
    pub start: usize,
    /// The records after it.
    pub signers: Vec<Signer>,
}

/// The words that can still be had: from `first` to before `end`.
struct Stretch {
    first: u128,
    end: u128,
}

impl Stretch {
    /// Takes words off its front, where there are as many, and tells the first of them.
    fn hand_out(&mut self, words: u128) -> Option<u128> {
        let start = self.first;
        self.first += words;
        (self.first <= self.end).then_some(start)
    }

    /// Leaves words at its end to somebody, where there are as many.
    fn set_aside(&mut self, words: u128) -> Option<()> {
        self.end = self.end.checked_sub(words)?;
        (self.first <= self.end).then_some(())
    }

    /// What is left of a buffer after all that was drawn, where it has as many words.
    fn of(words: usize, signers: &[Signer]) -> Option<Self> {
        let (first, end) = (0, words as u128);
        let mut stretch = Stretch { first, end };
        for signer in signers {
            stretch.hand_out(u128::from(signer.drawn))?;
        }
        Some(stretch)
    }

    /// Sets aside what each of these lacks, where there is enough.
    fn leave<'a>(&mut self, signers: impl Iterator<Item = &'a Signer>) -> Option<()> {
        signers
            .map(Signer::lack)
            .try_for_each(|lack| self.set_aside(lack))
    }
}

/// 3 for records that no opening and draws on so many words can leave: a number of them or of words
/// outside its limits, a reserve or draws above their cap, or words that are not there for all that
/// was drawn and is still lacked.
fn check(words: usize, signers: &[Signer]) -> Answer<()> {
    refuse(SIZE, words > MOST_WORDS)?;
    refuse(SIZE, !(1..=MOST_SIGNERS).contains(&signers.len()))?;
    for &Signer {
        reserve,
        cap,
        drawn,
    } in signers
    {
        refuse(SIZE, reserve > cap || drawn > cap)?;
    }
    let stretch = Stretch::of(words, signers);
    let left = stretch.and_then(|mut stretch| stretch.leave(signers.iter()));
    left.ok_or(SIZE)
}

/// The records with nothing drawn.
fn fresh(signers: &[Signer]) -> Vec<Signer> {
    let each = signers.iter();
    each.map(|&signer| Signer { drawn: 0, ..signer }).collect()
}

/// Opening: the records laid down. What they held as drawn before is not looked at.
pub fn open(words: usize, signers: &[Signer]) -> Answer<Vec<Signer>> {
    let opened = fresh(signers);
    check(words, &opened)?;
    Ok(opened)
}

/// Drawing q words: where they start, and the records laid down.
pub fn draw(words: usize, signers: &[Signer], signer: usize, q: usize) -> Answer<Granted> {
    check(words, signers)?;
    refuse(SIGNER, signer >= signers.len())?;
    let Signer { cap, drawn, .. } = signers[signer];
    let drawn = u128::from(drawn) + q as u128;
    refuse(CAP, drawn > u128::from(cap))?;
    let start = start_of(words, signers, signer, q).ok_or(RESERVE)?;
    let mut signers = signers.to_vec();
    signers[signer].drawn = u32::try_from(drawn).expect("at most the cap");
    Ok(Granted { start, signers })
}

/// Where the next q words start, if they are there and the others lack none of those after them.
fn start_of(words: usize, signers: &[Signer], signer: usize, q: usize) -> Option<usize> {
    let mut left = Stretch::of(words, signers)?;
    let start = left.hand_out(q as u128)?;
    let (before, behind) = (&signers[..signer], &signers[signer + 1..]);
    left.leave(before.iter().chain(behind))?;
    usize::try_from(start).ok()
}

/// Refilling: the records laid down.
pub fn refill(words: usize, signers: &[Signer]) -> Answer<Vec<Signer>> {
    check(words, signers)?;
    Ok(fresh(signers))
}
