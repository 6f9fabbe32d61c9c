//! The operations as callers know them: buffers and numbers are lent, and 0 or the refusal's number
//! is returned.
//!
//! Names and order of the parameters are those of the engine's C interface. A refusal changes
//! nothing that is lent, and no answer changes an element beyond its result. So a test can lend
//! equal memory to the engine and to these functions and compare all of it afterwards.

use crate::lanes::MISS;
use crate::machine::Run;
use crate::pool::Signer;
use crate::refusal::Answer;
use crate::{
    compiler, cumulative, draws, lanes, machine, matrix, pool, program, walk as walks, wanted,
    weights as shares, wide,
};

/// Returned where an operation was carried out.
pub const DONE: u32 = 0;

/// Lays elements down at the front of a lent buffer.
fn lay<T: Copy>(laid: &[T], buffer: &mut [T]) {
    buffer[..laid.len()].copy_from_slice(laid);
}

/// Carries out `put` on a result and returns 0, or returns the refusal's number.
fn settle<T>(answer: Answer<T>, put: impl FnOnce(T)) -> u32 {
    match answer {
        Ok(result) => {
            put(result);
            DONE
        }
        Err(number) => number,
    }
}

/// Lays a file down and sets its length.
fn settle_file(answer: Answer<Vec<u8>>, file: &mut [u8], length: &mut usize) -> u32 {
    settle(answer, |laid| {
        lay(&laid, file);
        *length = laid.len();
    })
}

/// Reading a matrix file.
pub fn read(file: &[u8], entries: &mut [u8], rows: &mut usize, columns: &mut usize) -> u32 {
    settle(matrix::read(file, entries.len()), |matrix| {
        lay(&matrix.entries, entries);
        *rows = matrix.rows;
        *columns = matrix.columns;
    })
}

/// Writing a matrix file.
pub fn write(
    rows: usize,
    columns: usize,
    entries: &[u8],
    file: &mut [u8],
    length: &mut usize,
) -> u32 {
    let answer = matrix::write(rows, columns, entries, file.len());
    settle_file(answer, file, length)
}

/// Building a matrix file from weights.
pub fn build(
    weights: &[u32],
    columns: usize,
    signed: bool,
    file: &mut [u8],
    length: &mut usize,
) -> u32 {
    let answer = shares::build(weights, columns, signed, file.len());
    settle_file(answer, file, length)
}

/// Walking on one string; row 255 is a miss.
pub fn walk(file: &[u8], string: &[u8], row: &mut usize, used: &mut usize) -> u32 {
    settle(walks::walk(file, string), |walked| {
        *row = walked.row.unwrap_or(usize::from(MISS));
        *used = walked.used;
    })
}

/// Adding up what the walks on 64 strings use.
pub fn spent(file: &[u8], strings: &[u8], total: &mut usize) -> u32 {
    settle(walks::spent(file, strings), |spent| *total = spent)
}

/// Finding the smallest string on which the walk hits a row; nothing is laid where there is none.
pub fn string_for(file: &[u8], row: usize, string: &mut [u8], found: &mut bool) -> u32 {
    let answer = wanted::string_for(file, row, string.len());
    settle(answer, |laid| {
        *found = laid.is_some();
        lay(&laid.unwrap_or_default(), string);
    })
}

/// Compiling a matrix file.
pub fn compile(file: &[u8], program: &mut [u8], length: &mut usize) -> u32 {
    let answer = compiler::compile(file, program.len());
    settle_file(answer, program, length)
}

/// Checking a program file.
pub fn check(
    program: &[u8],
    registers: &mut usize,
    inputs: &mut usize,
    outputs: &mut usize,
    rows: &mut usize,
    count: &mut u32,
) -> u32 {
    settle(program::check(program), |header| {
        *registers = header.registers;
        *inputs = header.inputs;
        *outputs = header.outputs;
        *rows = header.rows;
        *count = header.count as u32;
    })
}

/// Starting a program.
#[allow(clippy::too_many_arguments)]
pub fn start(
    program: &[u8],
    inputs: &[u64],
    registers: &mut [u64],
    outputs: &mut [u64],
    budget: u32,
    position: &mut u32,
    count: &mut u32,
    finished: &mut bool,
) -> u32 {
    let answer = machine::start(program, inputs, registers.len(), outputs.len(), budget);
    settle(answer, |run| {
        put_run(&run, registers, outputs, position, count, finished)
    })
}

/// Resuming a program.
#[allow(clippy::too_many_arguments)]
pub fn resume(
    program: &[u8],
    inputs: &[u64],
    registers: &mut [u64],
    outputs: &mut [u64],
    position: u32,
    budget: u32,
    position_out: &mut u32,
    count: &mut u32,
    finished: &mut bool,
) -> u32 {
    let answer = machine::resume(program, inputs, registers, outputs, position, budget);
    settle(answer, |run| {
        put_run(&run, registers, outputs, position_out, count, finished)
    })
}

/// Lays the words of a run down and sets its numbers.
fn put_run(
    run: &Run,
    registers: &mut [u64],
    outputs: &mut [u64],
    position: &mut u32,
    count: &mut u32,
    finished: &mut bool,
) {
    lay(&run.registers, registers);
    lay(&run.outputs, outputs);
    *position = run.position;
    *count = run.count;
    *finished = run.finished;
}

/// Slicing 64 strings.
pub fn slice(columns: usize, strings: &[u8], words: &mut [u64]) -> u32 {
    settle(lanes::slice(columns, strings, words.len()), |laid| {
        lay(&laid, words)
    })
}

/// Reading samples.
pub fn samples(rows: usize, outputs: &[u64], samples: &mut [u8]) -> u32 {
    let answer = lanes::samples(rows, outputs, samples.len());
    settle(answer, |laid| lay(&laid, samples))
}

/// Reading signed samples.
pub fn signed_samples(rows: usize, outputs: &[u64], sign: u64, samples: &mut [i16]) -> u32 {
    let answer = lanes::signed_samples(rows, outputs, sign, samples.len());
    settle(answer, |laid| lay(&laid, samples))
}

/// Drawing samples.
pub fn draw(program: &[u8], strings: &[u8], samples: &mut [u8]) -> u32 {
    let answer = draws::draw(program, strings, samples.len());
    settle(answer, |laid| lay(&laid, samples))
}

/// Drawing signed samples.
pub fn draw_signed(program: &[u8], strings: &[u8], sign: u64, samples: &mut [i16]) -> u32 {
    let answer = draws::draw_signed(program, strings, sign, samples.len());
    settle(answer, |laid| lay(&laid, samples))
}

/// Combining four lists of signed samples.
pub fn combine(
    x1: &[i16],
    x2: &[i16],
    x3: &[i16],
    x4: &[i16],
    first: u32,
    second: u32,
    results: &mut [i32],
) -> u32 {
    let answer = wide::combine(x1, x2, x3, x4, first, second, results.len());
    settle(answer, |laid| lay(&laid, results))
}

/// Importing a cumulative table.
pub fn import(table: &[u64], columns: usize, file: &mut [u8], length: &mut usize) -> u32 {
    let answer = cumulative::import(table, columns, file.len());
    settle_file(answer, file, length)
}

/// Exporting a matrix file to a cumulative table.
pub fn export(file: &[u8], table: &mut [u64], numbers: &mut usize, columns: &mut usize) -> u32 {
    settle(cumulative::export(file, table.len()), |exported| {
        lay(&exported.table, table);
        *numbers = exported.table.len();
        *columns = exported.columns;
    })
}

/// Looking a number up in a cumulative table; sample 255 is a miss.
pub fn lookup(table: &[u64], columns: usize, r: u64, sample: &mut usize) -> u32 {
    settle(cumulative::lookup(table, columns, r), |found| {
        *sample = found.unwrap_or(usize::from(MISS));
    })
}

/// Opening a pool.
pub fn pool_open(words: usize, signers: &mut [Signer]) -> u32 {
    settle(pool::open(words, signers), |laid| lay(&laid, signers))
}

/// Drawing words from a pool.
pub fn pool_draw(
    words: usize,
    signers: &mut [Signer],
    signer: usize,
    q: usize,
    start: &mut usize,
) -> u32 {
    settle(pool::draw(words, signers, signer, q), |granted| {
        lay(&granted.signers, signers);
        *start = granted.start;
    })
}

/// Refilling a pool.
pub fn pool_refill(words: usize, signers: &mut [Signer]) -> u32 {
    settle(pool::refill(words, signers), |laid| lay(&laid, signers))
}
