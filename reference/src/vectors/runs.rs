//! Programs that run: starts, stops and resumes, words, samples and draws.

use super::cases::{check, draw, draw_signed, resume, samples, signed_samples, slice, start, Long};
use super::line::Line;
use super::{COLUMNS_BEFORE, INSTRUCTIONS_BEFORE};
use crate::compiler::translate;
use crate::machine;
use crate::matrix::Matrix;
use crate::program::{Header, Instruction, Operation, Program, MOST_ROWS};
use crate::random::{self, Random};

/// The words on which the listed program runs.
const LISTED_WORDS: [u64; 1] = [0x0f0f_3333_5555_00ff];

/// The cases that are the same at every scale.
pub fn fixed(put: &mut dyn FnMut(Line)) {
    let listed = listed_program();
    for budget in (0..=13).chain([u32::MAX]) {
        put(start(&listed, &LISTED_WORDS, 10, 2, budget));
    }
    for (position, budget) in [
        (0, 5),
        (5, 3),
        (7, 1),
        (11, 1),
        (11, 0),
        (12, 0),
        (13, 0),
        (13, 1),
        (u32::MAX, 1),
    ] {
        put(resume_listed(&listed, position, budget));
    }
    lent_words(put);
    for (count, times) in [
        (INSTRUCTIONS_BEFORE, FILLING - 1),
        (INSTRUCTIONS_BEFORE, FILLING + 1),
        (INSTRUCTIONS_BEFORE + 1, FILLING + 1),
    ] {
        put(long_program(count, &LONG_NOT, times).check());
    }
    let longest = long_program(INSTRUCTIONS_BEFORE, &LONG_NOT, FILLING);
    put(longest.check());
    put(longest.start(&[0x5555; COLUMNS_BEFORE], u32::MAX));
}

/// The listed program resumed everywhere, and long programs stopped at several places.
pub fn thorough(put: &mut dyn FnMut(Line)) {
    let listed = listed_program();
    for position in (0..=14).chain([65_536, u32::MAX]) {
        for budget in (0..=13).chain([u32::MAX]) {
            put(resume_listed(&listed, position, budget));
        }
    }
    for middle in [&LONG_NOT[..], &LONG_AND] {
        let long = long_program(INSTRUCTIONS_BEFORE, middle, FILLING);
        for budget in [
            0, 1, 2, 65_535, 65_536, 131_062, 131_063, 131_064, 131_071, 131_072,
        ] {
            put(long.start(&[0x5555; COLUMNS_BEFORE], budget));
        }
        put(long.start(&[0x5555; COLUMNS_BEFORE - 1], 0));
    }
}

/// The program of 01's listing.
fn listed_program() -> Vec<u8> {
    translate(&Matrix::from_texts(&["1", "1"])).encode()
}

/// The listed program resumed on words that no stop has left.
fn resume_listed(listed: &[u8], position: u32, budget: u32) -> Line {
    resume(
        listed,
        &LISTED_WORDS,
        &[0x1234; 10],
        &[0x55, 0xaa],
        position,
        budget,
    )
}

/// Words lent that are fewer or more than the header counts, also with budget 0 and past the end.
fn lent_words(put: &mut dyn FnMut(Line)) {
    let program = translate(&Matrix::from_texts(&["1"])).encode();
    let words = [1, 2, 3, 4, 5, 6, 7, 8];
    for (inputs, registers, outputs) in [
        (0, 6, 1),
        (1, 5, 1),
        (1, 6, 0),
        (1, 6, 1),
        (2, 8, 3),
        (0, 0, 0),
    ] {
        for budget in [0, 4, 100] {
            put(start(
                &program,
                &words[..inputs],
                registers,
                outputs,
                budget,
            ));
            let (registers, outputs) = (&words[..registers], &words[..outputs]);
            put(resume(
                &program,
                &words[..inputs],
                registers,
                outputs,
                1,
                budget,
            ));
            put(resume(
                &program,
                &words[..inputs],
                registers,
                outputs,
                99,
                budget,
            ));
        }
    }
}

/// The outputs of a long program.
const LONG_OUTPUTS: usize = 8;
/// The instructions between its first one and those that set its outputs.
const FILLING: usize = INSTRUCTIONS_BEFORE - 1 - LONG_OUTPUTS;
/// NOT 1023 1023.
const LONG_NOT: [u8; 8] = [8, 0, 4, 0, 255, 3, 255, 3];
/// AND 1022 1023 1023.
const LONG_AND: [u8; 10] = [10, 0, 5, 0, 254, 3, 255, 3, 255, 3];

/// A program with the most registers and outputs, and of 128 inputs: INPUT 1023 127, then one
/// instruction over and over, then every output from register 1023.
fn long_program(count: usize, middle: &[u8], times: usize) -> Long {
    let header = Header {
        registers: 1_024,
        inputs: COLUMNS_BEFORE,
        outputs: LONG_OUTPUTS,
        rows: MOST_ROWS,
        count,
    };
    let mut long = Long {
        first: header.encode(),
        middle: middle.to_vec(),
        times,
        last: Vec::new(),
    };
    let last = COLUMNS_BEFORE - 1;
    Instruction::new(Operation::Input, &[1_023, last]).encode(&mut long.first);
    for output in 0..LONG_OUTPUTS {
        Instruction::new(Operation::Output, &[output, 1_023]).encode(&mut long.last);
    }
    long
}

/// Random cases.
pub fn round(random: &mut Random, put: &mut dyn FnMut(Line)) {
    for _ in 0..8 {
        let body = random.below(24);
        let program = random::program(random, body);
        program_runs(random, &program, put);
    }
    for _ in 0..2 {
        let (rows, columns) = (random.between(1, 3), random.between(1, 4));
        let program = translate(&random::matrix(random, rows, columns));
        program_runs(random, &program, put);
    }
    for _ in 0..4 {
        string_words(random, put);
        output_words(random, put);
    }
}

/// A check, a start that stops or not, the resume of what it left, a resume of anything, and draws.
fn program_runs(random: &mut Random, program: &Program, put: &mut dyn FnMut(Line)) {
    let (header, file) = (&program.header, program.encode());
    let inputs = some_words(random, header.inputs);
    let budget = random.below(header.count + 2) as u32;
    put(check(&file));
    put(start(
        &file,
        &inputs,
        header.registers,
        header.outputs,
        budget,
    ));
    let stop = machine::start(&file, &inputs, header.registers, header.outputs, budget);
    let stop = stop.expect("the program is sound");
    let rest = random.pick(&[0, 1, 2, 1_000, u32::MAX]);
    put(resume(
        &file,
        &inputs,
        &stop.registers,
        &stop.outputs,
        stop.position,
        rest,
    ));
    let registers = some_words(random, header.registers);
    let outputs = some_words(random, header.outputs);
    let position = random.below(header.count + 2) as u32;
    let budget = random.below(header.count + 1) as u32;
    put(resume(
        &file, &inputs, &registers, &outputs, position, budget,
    ));
    let strings = random::packed_strings(random, header.inputs, 64);
    put(draw(&file, &strings, 64));
    put(draw_signed(&file, &strings, random.word(), 64));
}

/// So many words of any content, or one or two more.
fn some_words(random: &mut Random, number: usize) -> Vec<u64> {
    let more = random.pick(&[0, 0, 1, 2]);
    random.words(number + more)
}

/// Strings to slice: sound ones, short ones, ones with a spare bit.
fn string_words(random: &mut Random, put: &mut dyn FnMut(Line)) {
    let columns = if random.once_in(4) {
        random.between(33, COLUMNS_BEFORE)
    } else {
        random.between(1, 32)
    };
    let mut strings = random::packed_strings(random, columns, 64);
    put(slice(columns, &strings, columns + random.below(2)));
    let place = random.below(strings.len());
    strings[place] ^= 1 << random.below(8);
    put(slice(columns, &strings, columns));
    let length = random.below(strings.len());
    put(slice(
        columns,
        &strings[..length],
        random.below(columns + 1),
    ));
}

/// Output words of any content, rows that they suit, and signs. The rows come from a generator aside.
fn output_words(random: &mut Random, put: &mut dyn FnMut(Line)) {
    let number = random.between(1, 8);
    let mut words = random.words(number);
    words[0] |= random.word();
    let rows = random::rows_for(&mut random.aside(), number);
    put(samples(rows, &words, 64 + random.below(2)));
    let (sign, samples_lent) = (random.word(), 64 + random.below(2));
    put(signed_samples(rows, &words, sign, samples_lent));
}
