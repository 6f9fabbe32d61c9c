//! 01, "Checked by hand", and 02, order 10: what the program `lister` prints.

use crate::compiler::compile;
use crate::program::{decode, Program};
use crate::refusal::Answer;

/// The largest program, in bytes, that `lister` lists.
pub const MOST_LISTED: usize = 65_536;

/// The text for a matrix file: the listing of its program, or the line of its refusal.
pub fn lister(file: &[u8]) -> String {
    match program_of(file) {
        Ok(program) => listing(&program),
        Err(number) => format!("refused {number}\n"),
    }
}

/// The program of a matrix file, or the refusal of the file, or 13 for a program above the limit.
fn program_of(file: &[u8]) -> Answer<Program> {
    decode(&compile(file, MOST_LISTED)?)
}

/// Registers, inputs, outputs, rows, count; then a line an instruction: position, name, operands.
pub fn listing(program: &Program) -> String {
    let header = &program.header;
    let mut text = format!(
        "{} {} {} {} {}\n",
        header.registers, header.inputs, header.outputs, header.rows, header.count
    );
    for (position, instruction) in program.instructions.iter().enumerate() {
        text.push_str(&format!("{position} {}", instruction.form.name));
        for (_, operand) in instruction.operands() {
            text.push_str(&format!(" {operand}"));
        }
        text.push('\n');
    }
    text
}
