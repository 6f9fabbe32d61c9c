//! Every operation of the engine through its C interface, against the reference.
//!
//! Takes a seed, if another than the fixed one is wanted. Exits 1 on the first difference.

mod columns;
#[path = "../../../include/corkhollow.rs"]
mod corkhollow;
mod cumulative;
mod faults;
mod foreign;
mod inputs;
mod lanes;
mod long;
mod matrices;
mod memory;
mod numbers;
mod pages;
mod pool;
mod programs;
mod rows;
mod stack;
mod table;
mod trial;
mod values;
mod wanted;
mod weights;
mod wide;
mod wrappers;

use inputs::Stock;
use reference::random::Random;
use trial::{fail, Trial, Tried, ANSWERS};

const SEED: u64 = 20_260_101;

/// Fewer successes, or fewer cases of a refusal that an operation has, would try too little.
const LEAST_SUCCESSES: usize = 1_000;
const LEAST_REFUSALS: usize = 20;

/// An operation, how one case of it is made and tried, and the refusals that it has.
struct Operation {
    name: &'static str,
    cases: u64,
    one_case: fn(&mut Trial, &mut Random, &Stock),
    refusals: &'static [usize],
}

const fn operation(
    name: &'static str,
    one_case: fn(&mut Trial, &mut Random, &Stock),
    refusals: &'static [usize],
) -> Operation {
    Operation {
        name,
        cases: 100_000,
        one_case,
        refusals,
    }
}

const OPERATIONS: [Operation; 25] = [
    operation("read", matrices::read, &[1, 2, 3, 4, 5, 6, 13]),
    operation("write", matrices::write, &[3, 5, 6, 13]),
    // Each list is built twice.
    Operation {
        cases: 60_000,
        ..operation("build", weights::build, &[3, 11, 13])
    },
    Operation {
        cases: 2_000,
        ..operation("build, draw ..", weights::draws, &[])
    },
    operation("walk", matrices::walk, &[1, 2, 3, 4, 5, 6, 13]),
    operation("spent", matrices::spent, &[1, 2, 3, 4, 5, 6, 13]),
    operation("string_for", wanted::string_for, &[1, 2, 3, 4, 5, 6, 13]),
    operation("compile", matrices::compile, &[1, 2, 3, 4, 5, 6, 13]),
    operation("check", programs::check, &[1, 2, 3, 4, 7, 8, 9, 10]),
    operation("start", programs::start, &[1, 2, 3, 4, 7, 8, 9, 10, 13]),
    operation(
        "resume",
        programs::resume,
        &[1, 2, 3, 4, 7, 8, 9, 10, 12, 13],
    ),
    Operation {
        cases: 20_000,
        ..operation("start, resume ..", programs::stops, &[])
    },
    operation("slice", lanes::slice, &[3, 5, 13]),
    operation("samples", lanes::samples, &[3, 13]),
    operation("signed_samples", lanes::signed_samples, &[3, 13]),
    operation("draw", lanes::draw, &[1, 2, 3, 4, 5, 7, 8, 9, 10, 13]),
    operation(
        "draw_signed",
        lanes::draw_signed,
        &[1, 2, 3, 4, 5, 7, 8, 9, 10, 13],
    ),
    operation("combine", wide::combine, &[5, 13, 14]),
    operation("import", cumulative::import, &[3, 13, 15, 16]),
    operation("export", cumulative::export, &[1, 2, 3, 4, 5, 6, 13]),
    operation("lookup", cumulative::lookup, &[3, 15, 16]),
    operation("pool_open", pool::open, &[3]),
    operation("pool_draw", pool::draw, &[3, 17, 18, 19]),
    operation("pool_refill", pool::refill, &[3]),
    Operation {
        cases: 4_000,
        ..operation("pool_draw ..", pool::sequence, &[17, 18, 19])
    },
];

fn main() {
    let seed = std::env::args().nth(1).map_or(SEED, |text| {
        let number = text.parse();
        number.unwrap_or_else(|_| fail("usage: interface [SEED]"))
    });
    numbers::compare();
    wrappers::compare();
    foreign::compare();
    cumulative::compare();
    weights::compare();
    values::compare();
    wanted::compare();
    pool::compare();
    columns::compare();
    long::compare();
    rows::compare();
    pages::compare();
    let stock = Stock::new(&mut Random::new(seed));
    let numbers: Vec<String> = (1..ANSWERS).map(|refusal| refusal.to_string()).collect();
    print_row("operation", "stack", "cases", "done", &numbers);
    let (mut calls, mut deepest) = (0, (0, ""));
    for (operation, trial) in OPERATIONS.iter().zip(tried_at_once(seed, &stock)) {
        report(operation, &trial);
        calls += trial.calls;
        deepest = deepest.max((trial.depth, operation.name));
    }
    let (depth, name) = deepest;
    println!("interface: {calls} calls, no difference; at most {depth} bytes of stack ({name})");
}

/// Tries all operations, each in a thread of its own: the header says that threads may call at once.
fn tried_at_once(seed: u64, stock: &Stock) -> Vec<Tried> {
    std::thread::scope(|threads| {
        let begin = |operation| threads.spawn(move || tried(operation, seed, stock));
        let begun: Vec<_> = OPERATIONS.iter().map(begin).collect();
        let ended = begun.into_iter().map(|thread| thread.join());
        let whole = ended.map(|tried| tried.unwrap_or_else(|_| fail("a trial panicked")));
        whole.collect()
    })
}

/// Tries all cases of one operation.
fn tried(operation: &Operation, seed: u64, stock: &Stock) -> Tried {
    let mut trial = Trial::new(operation.name, seed);
    for case in 0..operation.cases {
        let mut random = trial.begin(case);
        (operation.one_case)(&mut trial, &mut random, stock);
    }
    trial.tried
}

/// Prints the most stack that a call took, how many cases were tried, and how many of them were done and refused with each number.
fn report(operation: &Operation, trial: &Tried) {
    let answers = &trial.answers;
    let text = |&number: &usize| match number {
        0 => "-".to_string(),
        _ => number.to_string(),
    };
    let refused: Vec<String> = answers[1..].iter().map(text).collect();
    let cases: usize = answers.iter().sum();
    print_row(
        operation.name,
        &trial.depth.to_string(),
        &cases.to_string(),
        &text(&answers[0]),
        &refused,
    );
    require_enough(operation, answers);
}

fn print_row(name: &str, stack: &str, cases: &str, done: &str, refused: &[String]) {
    let refused: String = refused.iter().map(|text| format!(" {text:>5}")).collect();
    println!("{name:16} {stack:>6} {cases:>6} {done:>6} {refused}");
}

/// Every answer that an operation has was met often enough, and no other at all.
fn require_enough(operation: &Operation, answers: &[usize; ANSWERS]) {
    if answers[0] < LEAST_SUCCESSES {
        fail(&format!("{}: too few successes are tried", operation.name));
    }
    for (refusal, &number) in answers.iter().enumerate().skip(1) {
        let applies = operation.refusals.contains(&refusal);
        if applies && number < LEAST_REFUSALS || !applies && number > 0 {
            let name = operation.name;
            fail(&format!("{name}: refusal {refusal} is met {number} times"));
        }
    }
}
