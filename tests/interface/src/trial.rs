//! One operation on trial: each case is given to the reference and, both ways, to the engine, and all that they leave is compared.

use crate::memory::{Lent, Memory, View};
use crate::stack::{Stack, LIMIT};
use crate::table::{Table, TABLES};
use reference::lent::DONE;
use reference::random::Random;

/// The refusals, 1 to 19, and 0.
pub const ANSWERS: usize = 20;

/// Prints what is wrong, and ends the tests.
pub fn fail(what: &str) -> ! {
    println!("{what}");
    std::process::exit(1)
}

/// Ends the tests where a function returns another number than it must.
pub fn must(what: &str, wanted: u32, returned: u32) {
    if returned != wanted {
        fail(&format!("{what} returns {returned}, and not {wanted}"));
    }
}

/// What was tried.
#[derive(Default)]
pub struct Tried {
    /// How many calls of the engine there were.
    pub calls: usize,
    /// How many comparisons ended with each number.
    pub answers: [usize; ANSWERS],
    /// The most bytes of stack that a call took.
    pub depth: usize,
}

pub struct Trial {
    operation: &'static str,
    seed: u64,
    case: u64,
    pub tried: Tried,
    stack: Stack,
    expected: Vec<u64>,
    actual: Vec<u64>,
}

impl Trial {
    pub fn new(operation: &'static str, seed: u64) -> Self {
        Trial {
            operation,
            seed,
            case: 0,
            tried: Tried::default(),
            stack: Stack::new(),
            expected: Vec::new(),
            actual: Vec::new(),
        }
    }

    /// Begins a case. Its generator depends on the operation, the seed and the case's number only.
    pub fn begin(&mut self, case: u64) -> Random {
        self.case = case;
        let letters = self.operation.bytes();
        let name = letters.fold(0, |sum: u64, letter| {
            sum.wrapping_mul(257).wrapping_add(u64::from(letter))
        });
        let mut mixed = Random::new(self.seed ^ name.rotate_left(20));
        Random::new(mixed.word().wrapping_add(case))
    }

    /// Gives one case to the reference and to the engine. Returns the number that all of them return; what they leave is then in `left`.
    pub fn compare(
        &mut self,
        memory: &Memory,
        reference: impl FnOnce(View) -> u32,
        engine: impl Fn(&Table, View) -> u32,
    ) -> u32 {
        self.expected.clone_from(&memory.block);
        let returned = reference(View::of(&mut self.expected));
        for table in &TABLES {
            self.actual.clone_from(&memory.block);
            let view = View::of(&mut self.actual);
            let mut answered = 0;
            let depth = self.stack.depth(|| answered = engine(table, view));
            self.tried.calls += 1;
            self.judge(memory, table.way, returned, answered);
            self.tried.depth = self.tried.depth.max(depth);
            if depth >= LIMIT {
                let deep = format!("{depth} bytes of stack, and the limit is {LIMIT}");
                self.differ(memory, table.way, &deep);
            }
        }
        self.tried.answers[returned as usize] += 1;
        returned
    }

    /// Ends the tests where the engine returned another number or left other memory.
    fn judge(&self, memory: &Memory, way: &str, returned: u32, answered: u32) {
        if answered != returned {
            let numbers = format!("the engine returned {answered}, the reference {returned}");
            self.differ(memory, way, &numbers);
        }
        if let Some(byte) = first_difference(&self.expected, &self.actual) {
            let place = memory.describe(byte);
            let memories = format!("both returned {answered} and left other bytes: {place}");
            self.differ(memory, way, &memories);
        }
        // The reference may be wrong as well, but a refusal changes nothing whatever it says.
        if answered != DONE && self.actual != memory.block {
            self.differ(memory, way, &format!("refusal {answered} changed memory"));
        }
    }

    /// What the last case left, the same for all.
    pub fn left(&mut self) -> View {
        View::of(&mut self.expected)
    }

    /// The file that the last case laid down at the front of its room; nothing where it was refused.
    pub fn laid(&mut self, returned: u32, room: Lent<u8>, length: Lent<usize>) -> Vec<u8> {
        if returned != DONE {
            return Vec::new();
        }
        let view = self.left();
        // SAFETY: the block that is left lives, and nothing else uses it.
        unsafe { view.slice(room)[..*view.number(length)].to_vec() }
    }

    /// Ends the tests with a difference that was found.
    pub fn differ(&self, memory: &Memory, way: &str, what: &str) -> ! {
        let Trial {
            operation,
            seed,
            case,
            ..
        } = self;
        let given = memory.listing();
        fail(&format!(
            "difference: {operation}, case {case}, seed {seed}, by {way}: {what}\nlent:\n{given}"
        ))
    }
}

/// The first byte in which two blocks differ.
fn first_difference(one: &[u64], other: &[u64]) -> Option<usize> {
    let word = (0..one.len()).find(|&i| one[i] != other[i])?;
    let (one, other) = (one[word].to_ne_bytes(), other[word].to_ne_bytes());
    let byte = (0..8).find(|&i| one[i] != other[i])?;
    Some(word * 8 + byte)
}
