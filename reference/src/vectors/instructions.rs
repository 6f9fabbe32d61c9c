//! 02, order 8: programs of 129 to 192 inputs, and one more, and of 131,073 to 262,144 instructions,
//! and one more; checked, started, and stopped on both sides of the limits.

use super::cases::{check, draw, start, Long};
use super::damaged::least_program;
use super::line::Line;
use super::INSTRUCTIONS_BEFORE;
use crate::damage::{edited, program_header_edits, program_limit_edits};
use crate::program::{Header, Instruction, Operation, Program};
use crate::program::{MOST_INPUTS, MOST_INSTRUCTIONS, MOST_ROWS};
use crate::random::Random;

/// The outputs of a long program.
const OUTPUTS: usize = 8;
/// Its instructions besides those that are repeated.
const FRAME: usize = 1 + OUTPUTS;

/// The cases that are the same at every scale.
pub fn fixed(random: &mut Random, put: &mut dyn FnMut(Line)) {
    inputs(put);
    counts(put);
    let most = long(MOST_INPUTS, MOST_INSTRUCTIONS, MOST_INSTRUCTIONS);
    put(most.start(&random.words(MOST_INPUTS), u32::MAX));
    put(most.start(&[], u32::MAX));
    let one_input = long(1, MOST_INSTRUCTIONS, MOST_INSTRUCTIONS);
    for budget in [131_072, 131_073, 196_609, 262_136, 262_143, 262_144] {
        put(one_input.start(&[0x5555], budget));
    }
    let next = INSTRUCTIONS_BEFORE + 1;
    for budget in [131_072, 131_073] {
        put(long(1, next, next).start(&[0x5555], budget));
    }
}

/// A program that takes its last input: INPUT 0 `input`, OUTPUT 0 0.
fn taking(inputs: usize, input: usize) -> Program {
    Program {
        header: Header {
            registers: 1,
            inputs,
            outputs: 1,
            rows: 1,
            count: 2,
        },
        instructions: vec![
            Instruction::new(Operation::Input, &[0, input]),
            Instruction::new(Operation::Output, &[0, 0]),
        ],
    }
}

/// Inputs within and outside, and an input number that is one too large: 8, and with one input too
/// many 3, and with another header length 4. Then words and strings for fewer inputs.
fn inputs(put: &mut dyn FnMut(Line)) {
    for inputs in [128, 129, 136, 191, 192, 193, 256 + 192, 65_535] {
        put(check(&taking(inputs, inputs - 1).encode()));
        if inputs < 65_535 {
            put(check(&taking(inputs, inputs).encode()));
        }
    }
    put(check(&taking(129, 191).encode()));
    let mut header = taking(193, 0).encode();
    header[0] = 15;
    put(check(&header));
    let file = taking(129, 128).encode();
    put(start(&file, &[0x5555; 8], 1, 1, 2));
    put(draw(&file, &[0xff; 64], 64));
}

/// Counts of the most instructions and one more: with one too few there, exactly as many, and one
/// too many. A count alone, of nothing that is there, is 1 where it is within and 3 where not.
fn counts(put: &mut dyn FnMut(Line)) {
    let most = MOST_INSTRUCTIONS;
    for (count, there) in [
        (most, most - 1),
        (most, most),
        (most, most + 1),
        (most + 1, most),
        (most + 1, most + 1),
        (INSTRUCTIONS_BEFORE + 1, INSTRUCTIONS_BEFORE + 1),
    ] {
        put(long(MOST_INPUTS, count, there).check());
    }
    for count in [131_072, 131_073, 262_144, 262_145, 1 << 31] {
        let header = Header {
            count,
            ..taking(1, 0).header
        };
        put(check(&header.encode()));
    }
}

/// A program with the most registers and outputs: INPUT 1023 of the last input, then NOT 1023 1023
/// over and over, then every output from register 1023. Its header counts `count` instructions, and
/// `there` are there.
fn long(inputs: usize, count: usize, there: usize) -> Long {
    let header = Header {
        registers: 1_024,
        inputs,
        outputs: OUTPUTS,
        rows: MOST_ROWS,
        count,
    };
    let mut long = Long {
        first: header.encode(),
        middle: Vec::new(),
        times: there - FRAME,
        last: Vec::new(),
    };
    Instruction::new(Operation::Input, &[1_023, inputs - 1]).encode(&mut long.first);
    Instruction::new(Operation::Not, &[1_023, 1_023]).encode(&mut long.middle);
    for output in 0..OUTPUTS {
        Instruction::new(Operation::Output, &[output, 1_023]).encode(&mut long.last);
    }
    long
}

/// Long programs stopped at each place around the limits.
pub fn thorough(put: &mut dyn FnMut(Line)) {
    for count in [INSTRUCTIONS_BEFORE + 1, 200_000, MOST_INSTRUCTIONS] {
        let program = long(1, count, count);
        for around in [65_536, 131_072, 196_608, count - OUTPUTS, count] {
            for budget in around - 2..=around + 2 {
                put(program.start(&[0x5555], budget as u32));
            }
        }
    }
}

/// Random cases: a small program with its inputs or its count set next to their limits, and in half
/// of the cases with another edit of its header.
pub fn round(random: &mut Random, put: &mut dyn FnMut(Line)) {
    for _ in 0..6 {
        let file = least_program();
        let mut edits = vec![random.pick(&program_limit_edits(&file))];
        if random.bit() == 1 {
            edits.push(random.pick(&program_header_edits(&file)));
        }
        put(check(&edited(&file, &edits)));
    }
}
