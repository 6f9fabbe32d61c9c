//! The operations on lanes: slice, samples, signed samples, and the draws, which take a program too.

use crate::faults::field_or_0;
use crate::inputs::{fit, length, outside, set_spare_bit, strings, Stock, COLUMNS, SIXTEEN_BITS};
use crate::memory::Memory;
use crate::programs::some_program;
use crate::trial::Trial;
use reference::lanes::LANES;
use reference::lent;
use reference::matrix::MOST_COLUMNS;
use reference::program::{MOST_INPUTS, MOST_OUTPUTS, MOST_ROWS};
use reference::random::{rows_for, Random};

/// 64 strings of so many bits: sound, with a spare bit, too short.
fn some_strings(random: &mut Random, columns: usize) -> Vec<u8> {
    let mut strings = strings(random, columns, LANES);
    string_faults(random, &mut strings, columns);
    strings
}

/// The faults of 64 strings, each once in some times.
pub fn string_faults(random: &mut Random, strings: &mut Vec<u8>, columns: usize) {
    if random.once_in(6) {
        set_spare_bit(random, strings, columns);
    }
    fit(random, strings, 6);
}

pub fn slice(trial: &mut Trial, random: &mut Random, _: &Stock) {
    let (small, any) = (random.between(1, 17), random.between(1, MOST_COLUMNS));
    let edge = random.pick(&COLUMNS);
    let mut columns = random.pick(&[edge, edge, edge, small, small, any]);
    let strings = some_strings(random, columns);
    let words = length(random, columns, 5);
    if random.once_in(8) {
        columns = outside(random, MOST_COLUMNS);
    }
    slice_on(trial, random, columns, &strings, words);
}

/// Slices into room for so many words. Returns the number that engine and reference return, and the words as they are left.
pub fn slice_on(
    trial: &mut Trial,
    random: &mut Random,
    columns: usize,
    strings: &[u8],
    words: usize,
) -> (u32, Vec<u64>) {
    let mut memory = Memory::new(random);
    memory.note("columns", columns as u64);
    let strings = memory.lend("strings", strings);
    let words = memory.room("words", words);
    let returned = trial.compare(
        &memory,
        // SAFETY, here and below: what is lent lies apart in the block, which lives as long as the call.
        |view| unsafe { lent::slice(columns, view.slice(strings), view.slice_mut(words)) },
        |table, view| unsafe {
            let strings_pointer = view.pointer(strings);
            let words_pointer = view.pointer(words);
            (table.slice)(
                columns,
                strings_pointer,
                strings.length,
                words_pointer,
                words.length,
            )
        },
    );
    // SAFETY: the block that is left lives, and nothing else uses it.
    (returned, unsafe { trial.left().slice(words) }.to_vec())
}

/// Output words: mostly 1 to 8, of any content, or with lanes that all hit or all miss. And rows: mostly such as take so many words.
fn some_outputs(random: &mut Random) -> (usize, Vec<u64>) {
    let within = random.between(1, MOST_OUTPUTS);
    let number = match random.below(200) {
        0 => SIXTEEN_BITS + within,
        1..=10 => 0,
        11..=20 => MOST_OUTPUTS + 1,
        21..=30 => random.between(MOST_OUTPUTS + 1, 300),
        _ => within,
    };
    let mut outputs = random.words(number);
    if let Some(hits) = outputs.first_mut() {
        *hits = random.pick(&[*hits, *hits, *hits, 0, u64::MAX]);
    }
    let suited = rows_for(random, within);
    let other = random.between(1, MOST_ROWS);
    let none = outside(random, MOST_ROWS);
    let rows = match random.below(16) {
        0 => 256 + suited,
        1 => none,
        2 => random.pick(&[suited - 1, suited + 1, other]),
        _ => suited,
    };
    (rows, outputs)
}

/// A sign word.
fn some_sign(random: &mut Random) -> u64 {
    let any = random.word();
    random.pick(&[any, any, any, 0, u64::MAX])
}

pub fn samples(trial: &mut Trial, random: &mut Random, _: &Stock) {
    let (rows, outputs) = some_outputs(random);
    let samples = length(random, LANES, 4);
    samples_on(trial, random, rows, &outputs, samples);
}

/// Reads samples into room for so many. Returns the number that engine and reference return, and the samples as they are left, as
/// `signed_samples_on` does.
pub fn samples_on(
    trial: &mut Trial,
    random: &mut Random,
    rows: usize,
    outputs: &[u64],
    samples: usize,
) -> (u32, Vec<u8>) {
    let mut memory = Memory::new(random);
    memory.note("rows", rows as u64);
    let outputs = memory.lend("outputs", outputs);
    let samples = memory.room("samples", samples);
    let returned = trial.compare(
        &memory,
        |view| unsafe { lent::samples(rows, view.slice(outputs), view.slice_mut(samples)) },
        |table, view| unsafe {
            (table.samples)(
                rows,
                view.pointer(outputs),
                outputs.length,
                view.pointer(samples),
                samples.length,
            )
        },
    );
    // SAFETY: the block that is left lives, and nothing else uses it.
    (returned, unsafe { trial.left().slice(samples) }.to_vec())
}

pub fn signed_samples(trial: &mut Trial, random: &mut Random, _: &Stock) {
    let (rows, outputs) = some_outputs(random);
    let sign = some_sign(random);
    let samples = length(random, LANES, 4);
    signed_samples_on(trial, random, rows, &outputs, sign, samples);
}

/// Reads with a sign word.
pub fn signed_samples_on(
    trial: &mut Trial,
    random: &mut Random,
    rows: usize,
    outputs: &[u64],
    sign: u64,
    samples: usize,
) -> (u32, Vec<i16>) {
    let mut memory = Memory::new(random);
    memory.note("rows", rows as u64);
    memory.note("sign", sign);
    let outputs = memory.lend("outputs", outputs);
    let samples = memory.room("samples", samples);
    let returned = trial.compare(
        &memory,
        |view| unsafe {
            let (outputs, samples) = (view.slice(outputs), view.slice_mut(samples));
            lent::signed_samples(rows, outputs, sign, samples)
        },
        |table, view| unsafe {
            (table.signed_samples)(
                rows,
                view.pointer(outputs),
                outputs.length,
                sign,
                view.pointer(samples),
                samples.length,
            )
        },
    );
    // SAFETY: the block that is left lives, and nothing else uses it.
    (returned, unsafe { trial.left().slice(samples) }.to_vec())
}

/// A program, strings of as many bits as it has inputs, and the length of a buffer for samples.
fn some_draw(random: &mut Random, stock: &Stock) -> (Vec<u8>, Vec<u8>, usize) {
    let program = some_program(random, stock);
    let inputs = field_or_0(&program, 6).clamp(1, MOST_INPUTS);
    let strings = some_strings(random, inputs);
    (program, strings, length(random, LANES, 6))
}

pub fn draw(trial: &mut Trial, random: &mut Random, stock: &Stock) {
    let (program, strings, samples) = some_draw(random, stock);
    draw_on(trial, random, &program, &strings, samples);
}

/// Draws into room for so many samples. Returns the number that engine and reference return, and the samples as they are left, as
/// `draw_signed_on` does.
pub fn draw_on(
    trial: &mut Trial,
    random: &mut Random,
    program: &[u8],
    strings: &[u8],
    samples: usize,
) -> (u32, Vec<u8>) {
    let mut memory = Memory::new(random);
    let program = memory.lend("program", program);
    let strings = memory.lend("strings", strings);
    let samples = memory.room("samples", samples);
    let returned = trial.compare(
        &memory,
        |view| unsafe {
            lent::draw(
                view.slice(program),
                view.slice(strings),
                view.slice_mut(samples),
            )
        },
        |table, view| unsafe {
            (table.draw)(
                view.pointer(program),
                program.length,
                view.pointer(strings),
                strings.length,
                view.pointer(samples),
                samples.length,
            )
        },
    );
    // SAFETY: the block that is left lives, and nothing else uses it.
    (returned, unsafe { trial.left().slice(samples) }.to_vec())
}

pub fn draw_signed(trial: &mut Trial, random: &mut Random, stock: &Stock) {
    let (program, strings, samples) = some_draw(random, stock);
    let sign = some_sign(random);
    draw_signed_on(trial, random, &program, &strings, sign, samples);
}

/// Draws with a sign word.
pub fn draw_signed_on(
    trial: &mut Trial,
    random: &mut Random,
    program: &[u8],
    strings: &[u8],
    sign: u64,
    samples: usize,
) -> (u32, Vec<i16>) {
    let mut memory = Memory::new(random);
    memory.note("sign", sign);
    let program = memory.lend("program", program);
    let strings = memory.lend("strings", strings);
    let samples = memory.room("samples", samples);
    let returned = trial.compare(
        &memory,
        |view| unsafe {
            let (program, strings) = (view.slice(program), view.slice(strings));
            lent::draw_signed(program, strings, sign, view.slice_mut(samples))
        },
        |table, view| unsafe {
            (table.draw_signed)(
                view.pointer(program),
                program.length,
                view.pointer(strings),
                strings.length,
                sign,
                view.pointer(samples),
                samples.length,
            )
        },
    );
    // SAFETY: the block that is left lives, and nothing else uses it.
    (returned, unsafe { trial.left().slice(samples) }.to_vec())
}
