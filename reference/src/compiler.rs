//! 01, "Translation", and 02, order 10: from a matrix to its program.

use crate::matrix::{self, Matrix};
use crate::program::{Header, Instruction, Operation, Program};
use crate::refusal::{refuse, Answer, BUFFER};

pub use crate::program::{value_bits, VALUE_BIT_CASES};

/// The registers of a translated program, by the letters that 01 gives them.
struct Registers {
    value_bits: usize,
    rows: usize,
}

impl Registers {
    /// B: the column's input.
    const B: usize = 0;
    /// N: the complement of B.
    const N: usize = 1;
    /// H: a row was hit.
    const H: usize = 2;

    /// V_t: bit t of the row hit.
    fn v(&self, t: usize) -> usize {
        3 + t
    }

    /// X_i: the walk goes on with distance i.
    fn x(&self, i: usize) -> usize {
        3 + self.value_bits + i
    }

    /// Y_j: within a column, the distance is j.
    fn y(&self, j: usize) -> usize {
        3 + self.value_bits + self.rows + j
    }

    /// All of them.
    fn number(&self) -> usize {
        3 + self.value_bits + 3 * self.rows
    }
}

/// A list of instructions that grows.
#[derive(Default)]
struct Code {
    instructions: Vec<Instruction>,
}

impl Code {
    fn put(&mut self, operation: Operation, operands: &[usize]) {
        self.instructions
            .push(Instruction::new(operation, operands));
    }
}

/// The rows set in a column, in the order in which the walk meets them.
fn rows_met(matrix: &Matrix, column: usize) -> Vec<usize> {
    (0..matrix.rows)
        .rev()
        .filter(|&v| matrix.bit(v, column))
        .collect()
}

/// The program of an accepted matrix.
pub fn translate(matrix: &Matrix) -> Program {
    let registers = Registers {
        value_bits: value_bits(matrix.rows),
        rows: matrix.rows,
    };
    let mut code = Code::default();
    begin(&mut code, &registers);
    let mut live = 1;
    for column in 0..matrix.columns {
        let met = rows_met(matrix, column);
        split(&mut code, &registers, column, live);
        mark(&mut code, &registers, &met);
        live = (2 * live - met.len()).min(matrix.rows);
        keep(&mut code, &registers, met.len(), live);
    }
    finish(&mut code, &registers);
    let header = Header {
        registers: registers.number(),
        inputs: matrix.columns,
        outputs: 1 + registers.value_bits,
        rows: matrix.rows,
        count: code.instructions.len(),
    };
    Program {
        header,
        instructions: code.instructions,
    }
}

/// ONES X_0, ZERO H, ZERO V_0 .. V_(k-1).
fn begin(code: &mut Code, registers: &Registers) {
    code.put(Operation::Ones, &[registers.x(0)]);
    code.put(Operation::Zero, &[Registers::H]);
    for t in 0..registers.value_bits {
        code.put(Operation::Zero, &[registers.v(t)]);
    }
}

/// INPUT B c, NOT N B, then AND Y_2i X_i N and AND Y_(2i+1) X_i B for each live distance i.
fn split(code: &mut Code, registers: &Registers, column: usize, live: usize) {
    code.put(Operation::Input, &[Registers::B, column]);
    code.put(Operation::Not, &[Registers::N, Registers::B]);
    for i in 0..live {
        let x = registers.x(i);
        code.put(Operation::And, &[registers.y(2 * i), x, Registers::N]);
        code.put(Operation::And, &[registers.y(2 * i + 1), x, Registers::B]);
    }
}

/// For the set row v met j-th: OR H H Y_j, and OR V_t V_t Y_j for each set bit t of v, lowest
/// first.
fn mark(code: &mut Code, registers: &Registers, met: &[usize]) {
    for (j, &v) in met.iter().enumerate() {
        let y = registers.y(j);
        code.put(Operation::Or, &[Registers::H, Registers::H, y]);
        for t in (0..registers.value_bits).filter(|t| v >> t & 1 == 1) {
            code.put(Operation::Or, &[registers.v(t), registers.v(t), y]);
        }
    }
}

/// OR X_i Y_(w+i) Y_(w+i) for each distance i that is live after the column.
fn keep(code: &mut Code, registers: &Registers, ones: usize, live: usize) {
    for i in 0..live {
        let y = registers.y(ones + i);
        code.put(Operation::Or, &[registers.x(i), y, y]);
    }
}

/// OUTPUT 0 H, then OUTPUT 1+t V_t.
fn finish(code: &mut Code, registers: &Registers) {
    code.put(Operation::Output, &[0, Registers::H]);
    for t in 0..registers.value_bits {
        code.put(Operation::Output, &[1 + t, registers.v(t)]);
    }
}

/// Compiling: the program file laid into a buffer of `program_lent` bytes. The operation answers
/// its length.
pub fn compile(file: &[u8], program_lent: usize) -> Answer<Vec<u8>> {
    let program = translate(&matrix::decode(file)?);
    refuse(BUFFER, program_lent < program.length())?;
    Ok(program.encode())
}
