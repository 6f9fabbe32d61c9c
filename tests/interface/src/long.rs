//! 02, order 8: programs of up to 192 inputs and 262,144 instructions, and one more of each; started, stopped and resumed beyond 131,072
//! instructions, which were the most before.

use crate::foreign::OF_PROGRAM;
use crate::inputs::long_program;
use crate::lanes::draw_on;
use crate::matrices::compile_on;
use crate::programs::{check_on, resume_on, start_on, stopped_on, Left, Words};
use crate::trial::{fail, must, Trial};
use reference::compiler::translate;
use reference::extremes::{longest_program, row_of_longest};
use reference::lanes::{LANES, MISS};
use reference::lent::DONE;
use reference::program::{Header, Instruction, Operation, Program};
use reference::random::Random;
use reference::record::packed_length;

/// Ends the tests where a function answers otherwise than 02 says.
pub fn compare() {
    let random = &mut Random::new(0);
    inputs_are_taken(random);
    inputs_are_refused(random);
    counts_are_tried(random);
    for count in [131_073, 262_144] {
        long_programs_stop(random, count);
    }
    the_longest_compiled_one_runs(random);
}

/// A program that takes one input: INPUT 0 `input`, OUTPUT 0 0.
fn taking(inputs: usize, input: usize) -> Vec<u8> {
    let header = Header {
        registers: 1,
        inputs,
        outputs: 1,
        rows: 1,
        count: 2,
    };
    let instructions = vec![
        Instruction::new(Operation::Input, &[0, input]),
        Instruction::new(Operation::Output, &[0, 0]),
    ];
    Program {
        header,
        instructions,
    }
    .encode()
}

/// The last input is what the program gives; a word less, or a byte of 64 strings less, is too short.
fn inputs_are_taken(random: &mut Random) {
    let mut trial = Trial::new("check, start, draw", 0);
    for inputs in [128, 129, 136, 191, 192] {
        let program = taking(inputs, inputs - 1);
        must("check", DONE, check_on(&mut trial, random, &program));
        must(
            "check",
            8,
            check_on(&mut trial, random, &taking(inputs, inputs)),
        );
        let mut words = random.words(inputs);
        words[inputs - 1] = 0x1234;
        let left = stopped_on(&mut trial, random, &program, &words, &[2]);
        if left[0].words.outputs != [0x1234] {
            fail(&format!(
                "start of a program of {inputs} inputs: not its last input"
            ));
        }
        let short = Words {
            inputs: words[1..].to_vec(),
            registers: vec![0],
            outputs: vec![0],
        };
        let number = start_on(&mut trial, random, &program, &short, 2);
        must("start with a word less", 13, number);
        let number = resume_on(&mut trial, random, &program, &short, 1, 2);
        must("resume with a word less", 13, number);
        last_input_is_drawn(&mut trial, random, &program, inputs);
    }
}

/// Lane 9 has a 1 in the last input alone, which is its hit.
fn last_input_is_drawn(trial: &mut Trial, random: &mut Random, program: &[u8], inputs: usize) {
    let width = packed_length(inputs);
    let mut strings = vec![0; LANES * width];
    strings[10 * width - 1] = 1 << (8 * width - inputs);
    let mut samples = vec![MISS; LANES];
    samples[9] = 0;
    let (number, drawn) = draw_on(trial, random, program, &strings, LANES);
    if (number, &drawn) != (DONE, &samples) {
        fail(&format!(
            "draw of {inputs} inputs returns {number}, leaves {drawn:?}"
        ));
    }
    let (number, _) = draw_on(trial, random, program, &strings[1..], LANES);
    must("draw with a byte less", 13, number);
}

/// 193 inputs and more are 3 at every function that takes a program, also where an operand is too large; where the header's length is
/// another, it is 4 (02, order 10).
fn inputs_are_refused(random: &mut Random) {
    let mut trial = Trial::new("a program file", 0);
    for inputs in [193, 194, 255, 256 + 192, 65_535] {
        let sound = taking(inputs, 0);
        let (mut another, mut large) = (sound.clone(), sound.clone());
        another[0] = 15;
        // the input number of the first instruction
        large[22] = 255;
        large[23] = 255;
        for (file, number) in [(&sound, 3), (&another, 4), (&large, 3)] {
            for (name, call) in OF_PROGRAM {
                let returned = call(&mut trial, random, file);
                must(&format!("{name} of {inputs} inputs"), number, returned);
            }
        }
    }
}

/// A program of which the header counts other than the instructions that are there.
fn counting(count: u32, there: usize) -> Vec<u8> {
    let mut file = long_program(there);
    file[12..16].copy_from_slice(&count.to_le_bytes());
    file
}

fn counts_are_tried(random: &mut Random) {
    let mut trial = Trial::new("check", 0);
    for (count, there, number) in [
        (131_072, 131_072, DONE),
        (131_073, 131_073, DONE),
        (131_073, 131_072, 1),
        (131_072, 131_073, 4),
        (262_144, 262_144, DONE),
        (262_144, 262_143, 1),
        (262_144, 262_145, 4),
        (262_145, 262_145, 3),
        (262_145, 262_144, 3),
        (u32::MAX, 262_144, 3),
    ] {
        let returned = check_on(&mut trial, random, &counting(count, there));
        let what = format!("check of {there} instructions, counted as {count}");
        must(&what, number, returned);
    }
    for (name, call) in OF_PROGRAM {
        let returned = call(&mut trial, random, &counting(262_145, 262_145));
        must(&format!("{name} of 262,145 instructions"), 3, returned);
    }
}

/// Ends the tests where a long program, on an input of 0x5555, is not what it is after so many instructions: the complement after an odd
/// number of NOTs, and one output more for each of the last eight.
fn stands_at(left: &Left, done: u32, count: u32) {
    let nots = done.saturating_sub(1).min(count - 9);
    let word = if nots % 2 == 0 { 0x5555 } else { !0x5555 };
    let (mut registers, mut outputs) = (vec![0; 1_024], vec![0; 8]);
    registers[1_023] = word;
    outputs[..(done + 8).saturating_sub(count) as usize].fill(word);
    let stands = (left.position, left.finished) == (done, done == count);
    if !stands || left.words.registers != registers || left.words.outputs != outputs {
        let (position, outputs) = (left.position, &left.words.outputs);
        fail(&format!(
            "a long program stands at {position}, and not {done}: {outputs:x?}"
        ));
    }
}

/// Stops next to 65,536, to 131,072, to 196,608 and to the end, as far as the program goes, and a resume after the end.
fn long_programs_stop(random: &mut Random, count: u32) {
    let mut trial = Trial::new("start, resume ..", 0);
    let (program, mut inputs) = (long_program(count as usize), random.words(192));
    inputs[191] = 0x5555;
    let around = [65_536, 131_072, 196_608, count - 8, count];
    let mut stops: Vec<u32> = around.iter().flat_map(|&at| at - 1..=at + 1).collect();
    stops.retain(|&at| at <= count);
    stops.sort_unstable();
    stops.push(count);
    let mut budgets = vec![stops[0]];
    budgets.extend(stops.windows(2).map(|pair| pair[1] - pair[0]));
    let left = stopped_on(&mut trial, random, &program, &inputs, &budgets);
    for ((&stop, &budget), left) in stops.iter().zip(&budgets).zip(&left) {
        stands_at(left, stop, count);
        must("the count of a run", budget, left.count);
    }
    for budget in [131_071, 131_072, 131_073, count - 1, count, count + 1] {
        let left = stopped_on(&mut trial, random, &program, &inputs, &[budget]);
        stands_at(&left[0], budget.min(count), count);
    }
    let words = Words::some(random, &program, usize::MAX);
    let beyond = resume_on(&mut trial, random, &program, &words, count + 1, 0);
    must("resume above the count", 12, beyond);
}

/// The compiled program of 128 rows and 192 columns, of 178,509 instructions: at once, and stopped on both sides of 131,072 and of its end.
/// Lane 9 carries ones alone, and misses.
fn the_longest_compiled_one_runs(random: &mut Random) {
    let mut trial = Trial::new("compile, start ..", 0);
    let matrix = longest_program();
    let room = translate(&matrix).length();
    let (number, program) = compile_on(&mut trial, random, &matrix.encode(), room);
    must("compile of the longest program", DONE, number);
    let inputs: Vec<u64> = random.words(192).iter().map(|word| word | 1 << 9).collect();
    let at_once: &[u32] = &[178_509];
    for budgets in [at_once, &[131_071, 1, 1, 40_000, 7_435, 0, 1, 1]] {
        let left = stopped_on(&mut trial, random, &program, &inputs, budgets);
        let last = left.last().expect("a call");
        let counted: u32 = left.iter().map(|left| left.count).sum();
        if !last.finished || (last.position, counted) != (178_509, 178_509) {
            fail("the longest program has not finished after 178,509 instructions");
        }
        for lane in 0..LANES {
            let bit = |output: usize| last.words.outputs[output] >> lane & 1;
            let number = (0..7).map(|t| bit(1 + t) << t).sum();
            let given = (bit(0) == 1).then_some(number);
            if given != row_of_longest(&inputs, lane) || given.is_none() != (lane == 9) {
                fail(&format!(
                    "lane {lane} of the longest program gives {given:?}"
                ));
            }
        }
    }
}
