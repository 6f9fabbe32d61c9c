//! 01, "Runs, words, samples": starts and resumes of a program on 64-bit words.

use crate::program::{decode, Header, Instruction, Operation, Program};
use crate::refusal::{refuse, Answer, BUFFER, POSITION};

/// What a run answers, and what it lays down.
#[derive(Clone, Debug, PartialEq, Eq)]
pub struct Run {
    /// Finished, or else stopped.
    pub finished: bool,
    /// The instruction to resume at; the instruction count where finished.
    pub position: u32,
    /// The instructions carried out in this call.
    pub count: u32,
    /// The program's registers after exactly that many instructions.
    pub registers: Vec<u64>,
    /// The program's outputs after exactly that many instructions.
    pub outputs: Vec<u64>,
}

/// Start: registers and outputs at 0, from instruction 0. Of the lent registers and outputs only
/// the numbers count.
pub fn start(
    file: &[u8],
    inputs: &[u64],
    registers_lent: usize,
    outputs_lent: usize,
    budget: u32,
) -> Answer<Run> {
    let program = decode(file)?;
    let header = &program.header;
    check_lent(header, inputs.len(), registers_lent, outputs_lent)?;
    let registers = vec![0; header.registers];
    let outputs = vec![0; header.outputs];
    Ok(run(&program, inputs, registers, outputs, 0, budget))
}

/// Resume: registers and outputs as they are lent, from the position given.
pub fn resume(
    file: &[u8],
    inputs: &[u64],
    registers: &[u64],
    outputs: &[u64],
    position: u32,
    budget: u32,
) -> Answer<Run> {
    let program = decode(file)?;
    let header = &program.header;
    refuse(POSITION, position as usize > header.count)?;
    check_lent(header, inputs.len(), registers.len(), outputs.len())?;
    let registers = registers[..header.registers].to_vec();
    let outputs = outputs[..header.outputs].to_vec();
    Ok(run(&program, inputs, registers, outputs, position, budget))
}

/// 13 where less is lent than the header counts.
fn check_lent(header: &Header, inputs: usize, registers: usize, outputs: usize) -> Answer<()> {
    refuse(BUFFER, inputs < header.inputs)?;
    refuse(BUFFER, registers < header.registers)?;
    refuse(BUFFER, outputs < header.outputs)
}

/// Carries out instructions from a position on, while there are any and the budget is not used up.
fn run(
    program: &Program,
    inputs: &[u64],
    mut registers: Vec<u64>,
    mut outputs: Vec<u64>,
    position: u32,
    budget: u32,
) -> Run {
    let mut position = position as usize;
    let mut count = 0;
    while position < program.header.count && count < budget {
        step(
            &program.instructions[position],
            inputs,
            &mut registers,
            &mut outputs,
        );
        position += 1;
        count += 1;
    }
    Run {
        finished: position == program.header.count,
        position: position as u32,
        count,
        registers,
        outputs,
    }
}

/// One instruction: it reads before it writes.
fn step(instruction: &Instruction, inputs: &[u64], registers: &mut [u64], outputs: &mut [u64]) {
    let [a, b, c] = instruction.operands;
    match instruction.form.operation {
        Operation::Ones => registers[a] = u64::MAX,
        Operation::Zero => registers[a] = 0,
        Operation::Input => registers[a] = inputs[b],
        Operation::Not => registers[a] = !registers[b],
        Operation::And => registers[a] = registers[b] & registers[c],
        Operation::Or => registers[a] = registers[b] | registers[c],
        Operation::Output => outputs[a] = registers[b],
    }
}
