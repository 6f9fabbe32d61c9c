//! The left side of a vector, one function an operation, with the fields in the order of the
//! operation's parameters.

use super::line::{Line, Task};
use crate::pools::Pool;

pub fn read(file: &[u8], entries_lent: usize) -> Line {
    Line::new(Task::Read).array(file).size(entries_lent)
}

pub fn write(rows: usize, columns: usize, entries: &[u8], file_lent: usize) -> Line {
    let line = Line::new(Task::Write).size(rows).size(columns);
    line.array(entries).size(file_lent)
}

pub fn build(weights: &[u32], columns: usize, signed: bool, file_lent: usize) -> Line {
    let line = Line::new(Task::Build).array(weights).size(columns);
    line.number(u64::from(signed)).size(file_lent)
}

pub fn walk(file: &[u8], string: &[u8]) -> Line {
    Line::new(Task::Walk).array(file).array(string)
}

pub fn compile(file: &[u8], program_lent: usize) -> Line {
    Line::new(Task::Compile).array(file).size(program_lent)
}

pub fn check(program: &[u8]) -> Line {
    Line::new(Task::Check).array(program)
}

pub fn start(
    program: &[u8],
    inputs: &[u64],
    registers_lent: usize,
    outputs_lent: usize,
    budget: u32,
) -> Line {
    let line = Line::new(Task::Start).array(program).array(inputs);
    line.size(registers_lent)
        .size(outputs_lent)
        .number(u64::from(budget))
}

pub fn resume(
    program: &[u8],
    inputs: &[u64],
    registers: &[u64],
    outputs: &[u64],
    position: u32,
    budget: u32,
) -> Line {
    let line = Line::new(Task::Resume).array(program).array(inputs);
    let line = line.array(registers).array(outputs);
    line.number(u64::from(position)).number(u64::from(budget))
}

pub fn slice(columns: usize, strings: &[u8], words_lent: usize) -> Line {
    let line = Line::new(Task::Slice).size(columns);
    line.array(strings).size(words_lent)
}

pub fn samples(rows: usize, outputs: &[u64], samples_lent: usize) -> Line {
    let line = Line::new(Task::Samples).size(rows);
    line.array(outputs).size(samples_lent)
}

pub fn signed_samples(rows: usize, outputs: &[u64], sign: u64, samples_lent: usize) -> Line {
    let line = Line::new(Task::SignedSamples).size(rows);
    line.array(outputs).number(sign).size(samples_lent)
}

pub fn draw(program: &[u8], strings: &[u8], samples_lent: usize) -> Line {
    let line = Line::new(Task::Draw).array(program);
    line.array(strings).size(samples_lent)
}

pub fn draw_signed(program: &[u8], strings: &[u8], sign: u64, samples_lent: usize) -> Line {
    let line = Line::new(Task::DrawSigned).array(program);
    line.array(strings).number(sign).size(samples_lent)
}

pub fn spent(file: &[u8], strings: &[u8]) -> Line {
    Line::new(Task::Spent).array(file).array(strings)
}

pub fn combine(lists: [&[i16]; 4], first: u32, second: u32, results_lent: usize) -> Line {
    let line = Line::new(Task::Combine);
    let line = lists.iter().fold(line, |line, list| line.array(list));
    line.number(u64::from(first))
        .number(u64::from(second))
        .size(results_lent)
}

pub fn import(table: &[u64], columns: usize, file_lent: usize) -> Line {
    let line = Line::new(Task::Import).array(table);
    line.size(columns).size(file_lent)
}

pub fn export(file: &[u8], table_lent: usize) -> Line {
    Line::new(Task::Export).array(file).size(table_lent)
}

pub fn lookup(table: &[u64], columns: usize, r: u64) -> Line {
    let line = Line::new(Task::Lookup).array(table);
    line.size(columns).number(r)
}

pub fn string_for(file: &[u8], row: usize, string_lent: usize) -> Line {
    let line = Line::new(Task::StringFor).array(file);
    line.size(row).size(string_lent)
}

pub fn pool_open(pool: &Pool) -> Line {
    pool_fields(Task::PoolOpen, pool)
}

pub fn pool_draw(pool: &Pool, signer: usize, q: usize) -> Line {
    pool_fields(Task::PoolDraw, pool).size(signer).size(q)
}

pub fn pool_refill(pool: &Pool) -> Line {
    pool_fields(Task::PoolRefill, pool)
}

fn pool_fields(task: Task, pool: &Pool) -> Line {
    Line::new(task).size(pool.words).array(&pool.signers)
}

/// A matrix file is read, and what was read is written.
pub fn rewrite(file: &[u8]) -> Line {
    Line::new(Task::Rewrite).array(file)
}

/// A matrix file is compiled, and its program draws.
pub fn draws(file: &[u8], strings: &[u8], sign: u64) -> Line {
    Line::new(Task::Draws)
        .array(file)
        .array(strings)
        .number(sign)
}

/// A matrix file is compiled, and its program is started and then resumed.
pub fn stops(file: &[u8], inputs: &[u64], budgets: &[u32]) -> Line {
    Line::new(Task::Stops)
        .array(file)
        .array(inputs)
        .array(budgets)
}

/// A program of which the middle part is repeated.
pub struct Long {
    pub first: Vec<u8>,
    pub middle: Vec<u8>,
    pub times: usize,
    pub last: Vec<u8>,
}

impl Long {
    /// Its check.
    pub fn check(&self) -> Line {
        self.fields(Task::LongCheck)
    }

    /// Its start.
    pub fn start(&self, inputs: &[u64], budget: u32) -> Line {
        let line = self.fields(Task::LongStart);
        line.array(inputs).number(u64::from(budget))
    }

    fn fields(&self, task: Task) -> Line {
        let line = Line::new(task).array(&self.first).array(&self.middle);
        line.size(self.times).array(&self.last)
    }
}
