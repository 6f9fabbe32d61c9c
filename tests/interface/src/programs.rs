//! The operations on program files: check, start, resume, and starts that are resumed until they finish.

use crate::faults::{field_or_0, of_program, some_faults};
use crate::inputs::{length, program, Stock};
use crate::memory::{Lent, Memory};
use crate::trial::Trial;
use reference::lent;
use reference::program::{self as programs, MOST_INPUTS, MOST_OUTPUTS, MOST_REGISTERS};
use reference::random::Random;

/// A program file, sound or damaged.
pub fn some_program(random: &mut Random, stock: &Stock) -> Vec<u8> {
    let mut file = program(random, stock);
    some_faults(random, &mut file, of_program);
    file
}

pub fn check(trial: &mut Trial, random: &mut Random, stock: &Stock) {
    let file = some_program(random, stock);
    check_on(trial, random, &file);
}

/// Checks a file. Returns the number that engine and reference return, as each function `.._on` does.
pub fn check_on(trial: &mut Trial, random: &mut Random, file: &[u8]) -> u32 {
    checked_on(trial, random, file).0
}

/// Checks a file. Returns registers, inputs, outputs, rows and count too, as they are left.
pub fn checked_on(trial: &mut Trial, random: &mut Random, file: &[u8]) -> (u32, [usize; 5]) {
    let mut memory = Memory::new(random);
    let program = memory.lend("program", file);
    let registers = memory.number("registers");
    let inputs = memory.number("inputs");
    let outputs = memory.number("outputs");
    let rows = memory.number("rows");
    let count = memory.number::<u32>("count");
    let returned = trial.compare(
        &memory,
        // SAFETY, here and below: what is lent lies apart in the block, which lives as long as the call.
        |view| unsafe {
            lent::check(
                view.slice(program),
                view.number(registers),
                view.number(inputs),
                view.number(outputs),
                view.number(rows),
                view.number(count),
            )
        },
        |table, view| unsafe {
            (table.check)(
                view.pointer(program),
                program.length,
                view.pointer(registers),
                view.pointer(inputs),
                view.pointer(outputs),
                view.pointer(rows),
                view.pointer(count),
            )
        },
    );
    let view = trial.left();
    // SAFETY: the block that is left lives, and nothing else uses it.
    let told = unsafe {
        let [registers, inputs, outputs, rows] =
            [registers, inputs, outputs, rows].map(|number| *view.number(number));
        [
            registers,
            inputs,
            outputs,
            rows,
            *view.number(count) as usize,
        ]
    };
    (returned, told)
}

/// What a run is lent.
#[derive(Clone, Copy)]
struct Run {
    program: Lent<u8>,
    inputs: Lent<u64>,
    registers: Lent<u64>,
    outputs: Lent<u64>,
    position: Lent<u32>,
    count: Lent<u32>,
    finished: Lent<bool>,
}

/// The words that a run is lent.
#[derive(Default, PartialEq)]
pub struct Words {
    pub inputs: Vec<u64>,
    pub registers: Vec<u64>,
    pub outputs: Vec<u64>,
}

impl Words {
    /// Words of any content, as many as the file's header asks for, or more, or too few.
    pub fn some(random: &mut Random, file: &[u8], short_once_in: usize) -> Self {
        let mut words = |at: usize, most: usize| {
            let needed = field_or_0(file, at).min(most + 1);
            let number = length(random, needed, short_once_in);
            random.words(number)
        };
        Words {
            registers: words(4, MOST_REGISTERS),
            inputs: words(6, MOST_INPUTS),
            outputs: words(8, MOST_OUTPUTS),
        }
    }

    /// The first of them, as many as the header of a sound file counts.
    fn front(mut self, file: &[u8]) -> Self {
        self.registers.truncate(field_or_0(file, 4));
        self.inputs.truncate(field_or_0(file, 6));
        self.outputs.truncate(field_or_0(file, 8));
        self
    }

    /// The first of them put back into other buffers, which go on with anything.
    fn put_back(self, random: &mut Random, file: &[u8]) -> Self {
        let (front, mut other) = (self.front(file), Words::some(random, file, usize::MAX));
        other.registers[..front.registers.len()].copy_from_slice(&front.registers);
        other.inputs[..front.inputs.len()].copy_from_slice(&front.inputs);
        other.outputs[..front.outputs.len()].copy_from_slice(&front.outputs);
        other
    }
}

impl Run {
    fn lend(memory: &mut Memory, file: &[u8], words: &Words) -> Self {
        Run {
            program: memory.lend("program", file),
            inputs: memory.lend("inputs", &words.inputs),
            registers: memory.lend("registers", &words.registers),
            outputs: memory.lend("outputs", &words.outputs),
            position: memory.number("position"),
            count: memory.number("count"),
            finished: memory.yes_or_no("finished"),
        }
    }

    fn start(self, trial: &mut Trial, memory: &mut Memory, budget: u32) -> u32 {
        memory.note("budget", u64::from(budget));
        trial.compare(
            memory,
            |view| unsafe {
                lent::start(
                    view.slice(self.program),
                    view.slice(self.inputs),
                    view.slice_mut(self.registers),
                    view.slice_mut(self.outputs),
                    budget,
                    view.number(self.position),
                    view.number(self.count),
                    view.number(self.finished),
                )
            },
            |table, view| unsafe {
                (table.start)(
                    view.pointer(self.program),
                    self.program.length,
                    view.pointer(self.inputs),
                    self.inputs.length,
                    view.pointer(self.registers),
                    self.registers.length,
                    view.pointer(self.outputs),
                    self.outputs.length,
                    budget,
                    view.pointer(self.position),
                    view.pointer(self.count),
                    view.pointer(self.finished),
                )
            },
        )
    }

    fn resume(self, trial: &mut Trial, memory: &mut Memory, position: u32, budget: u32) -> u32 {
        memory.note("position", u64::from(position));
        memory.note("budget", u64::from(budget));
        trial.compare(
            memory,
            |view| unsafe {
                lent::resume(
                    view.slice(self.program),
                    view.slice(self.inputs),
                    view.slice_mut(self.registers),
                    view.slice_mut(self.outputs),
                    position,
                    budget,
                    view.number(self.position),
                    view.number(self.count),
                    view.number(self.finished),
                )
            },
            |table, view| unsafe {
                (table.resume)(
                    view.pointer(self.program),
                    self.program.length,
                    view.pointer(self.inputs),
                    self.inputs.length,
                    view.pointer(self.registers),
                    self.registers.length,
                    view.pointer(self.outputs),
                    self.outputs.length,
                    position,
                    budget,
                    view.pointer(self.position),
                    view.pointer(self.count),
                    view.pointer(self.finished),
                )
            },
        )
    }
}

/// The count that a file's header tells.
fn count_of(file: &[u8]) -> u32 {
    (field_or_0(file, 12) | field_or_0(file, 14) << 16) as u32
}

/// A budget, around a program's count or any.
fn some_budget(random: &mut Random, count: u32) -> u32 {
    let part = random.below(count as usize + 1) as u32;
    let (less, more) = (count.saturating_sub(1), count.saturating_add(1));
    let edge = random.pick(&[65_536, 131_072, 131_073]);
    random.pick(&[0, 1, less, count, more, edge, u32::MAX, part, part, part])
}

/// A position, mostly one within a program's count.
fn some_position(random: &mut Random, count: u32) -> u32 {
    let part = random.below(count as usize + 1) as u32;
    let (more, high) = (count.saturating_add(1), part.saturating_add(65_536));
    let above = random.pick(&[more, high, u32::MAX]);
    random.pick(&[0, count, part, part, part, part, part, above])
}

pub fn start(trial: &mut Trial, random: &mut Random, stock: &Stock) {
    let file = some_program(random, stock);
    let words = Words::some(random, &file, 10);
    let budget = some_budget(random, count_of(&file));
    start_on(trial, random, &file, &words, budget);
}

pub fn start_on(
    trial: &mut Trial,
    random: &mut Random,
    file: &[u8],
    words: &Words,
    budget: u32,
) -> u32 {
    let mut memory = Memory::new(random);
    Run::lend(&mut memory, file, words).start(trial, &mut memory, budget)
}

pub fn resume(trial: &mut Trial, random: &mut Random, stock: &Stock) {
    let file = some_program(random, stock);
    let words = Words::some(random, &file, 10);
    let position = some_position(random, count_of(&file));
    let budget = some_budget(random, count_of(&file));
    resume_on(trial, random, &file, &words, position, budget);
}

pub fn resume_on(
    trial: &mut Trial,
    random: &mut Random,
    file: &[u8],
    words: &Words,
    position: u32,
    budget: u32,
) -> u32 {
    let mut memory = Memory::new(random);
    Run::lend(&mut memory, file, words).resume(trial, &mut memory, position, budget)
}

/// What a run left: its words, and its numbers.
pub struct Left {
    pub words: Words,
    pub position: u32,
    pub count: u32,
    pub finished: bool,
}

/// Takes what the last call left, so that the next one can be lent it.
fn take(trial: &mut Trial, run: Run) -> Left {
    let view = trial.left();
    // SAFETY: the block has what the last call left, and nothing else uses it.
    unsafe {
        Left {
            words: Words {
                inputs: view.slice(run.inputs).to_vec(),
                registers: view.slice(run.registers).to_vec(),
                outputs: view.slice(run.outputs).to_vec(),
            },
            position: *view.number(run.position),
            count: *view.number(run.count),
            finished: *view.number(run.finished),
        }
    }
}

/// Starts a sound program with the first budget and resumes it with the others, each time with what the call before left put back into
/// other buffers. Tells what each call left.
pub fn stopped_on(
    trial: &mut Trial,
    random: &mut Random,
    file: &[u8],
    inputs: &[u64],
    budgets: &[u32],
) -> Vec<Left> {
    let mut words = Words::some(random, file, usize::MAX);
    words.inputs = inputs.to_vec();
    let (mut position, mut all) = (0, Vec::new());
    for (call, &budget) in budgets.iter().enumerate() {
        let mut memory = Memory::new(random);
        let run = Run::lend(&mut memory, file, &words);
        match call {
            0 => run.start(trial, &mut memory, budget),
            _ => run.resume(trial, &mut memory, position, budget),
        };
        let left = take(trial, run);
        position = left.position;
        words = take(trial, run).words.put_back(random, file);
        all.push(Left {
            words: left.words.front(file),
            ..left
        });
    }
    all
}

/// A start that is resumed, with what each call left put back into other buffers, until it has finished: it ends as the unbroken run does.
pub fn stops(trial: &mut Trial, random: &mut Random, stock: &Stock) {
    let file = loop {
        let file = program(random, stock);
        if programs::check(&file).is_ok() {
            break file;
        }
    };
    let count = count_of(&file);
    let words = Words::some(random, &file, usize::MAX);
    let mut memory = Memory::new(random);
    let run = Run::lend(&mut memory, &file, &words);
    run.start(trial, &mut memory, count);
    let unbroken = take(trial, run);
    run.start(trial, &mut memory, some_budget(random, count));
    let mut left = take(trial, run);
    let mut counted = left.count;
    for step in 0.. {
        if left.finished {
            break;
        }
        let part = some_budget(random, count / 4);
        let budget = if step < 6 { part } else { u32::MAX };
        memory = Memory::new(random);
        let run = Run::lend(&mut memory, &file, &left.words.put_back(random, &file));
        run.resume(trial, &mut memory, left.position, budget);
        left = take(trial, run);
        counted += left.count;
    }
    let (words, wanted) = (left.words.front(&file), unbroken.words.front(&file));
    if words != wanted || left.position != count || counted != count {
        trial.differ(
            &memory,
            "both",
            "the resumed run does not end as the unbroken one",
        );
    }
}
