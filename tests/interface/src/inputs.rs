//! Sound inputs of many sizes, and lengths and numbers around what is needed.

use reference::compiler::translate;
use reference::extremes::longest_program;
use reference::matrix::Matrix;
use reference::program::{
    Header, Instruction, Operation, Program, Role, MOST_INPUTS, MOST_INSTRUCTIONS, MOST_OUTPUTS,
    MOST_REGISTERS, MOST_ROWS,
};
use reference::random::{self, Random};
use reference::record::packed_length;
use reference::tables::{document_001, document_002, document_002_fine, document_004};

/// Rows at which something changes: the fewest, around a byte, and the most.
const ROWS: [usize; 7] = [1, 2, 7, 8, 9, 127, 128];
/// Columns at which something changes: the fewest, around a byte and a word, the most before 02, order 8, and the most.
pub const COLUMNS: [usize; 13] = [1, 2, 7, 8, 9, 63, 64, 65, 127, 128, 129, 191, 192];
/// The most instructions before 02, order 8.
const INSTRUCTIONS_BEFORE: usize = 131_072;

/// So much more looks like nothing more in 16 bits.
pub const SIXTEEN_BITS: usize = 65_536;

/// Large inputs, made once: every pair of edge sizes, the tables of the source documents, the longest programs.
pub struct Stock {
    pub matrices: Vec<Matrix>,
    pub programs: Vec<Vec<u8>>,
}

impl Stock {
    pub fn new(random: &mut Random) -> Self {
        let pairs = ROWS.iter().flat_map(|&m| COLUMNS.map(|n| (m, n)));
        let mut matrices: Vec<Matrix> = pairs.map(|(m, n)| random::matrix(random, m, n)).collect();
        matrices.extend([document_001(), document_002(), document_002_fine()]);
        matrices.push(document_004());
        matrices.push(longest_program());
        let compiled = matrices.iter().map(|matrix| translate(matrix).encode());
        let mut programs: Vec<Vec<u8>> = compiled.collect();
        for most in [INSTRUCTIONS_BEFORE, MOST_INSTRUCTIONS] {
            programs.extend([most, most + 1].map(long_program));
        }
        Stock { matrices, programs }
    }
}

/// A program of so many instructions, with the most registers, inputs, outputs and rows.
pub fn long_program(count: usize) -> Vec<u8> {
    let header = Header {
        registers: MOST_REGISTERS,
        inputs: MOST_INPUTS,
        outputs: MOST_OUTPUTS,
        rows: MOST_ROWS,
        count,
    };
    let last = MOST_REGISTERS - 1;
    let mut instructions = vec![Instruction::new(Operation::Input, &[last, MOST_INPUTS - 1])];
    let not = Instruction::new(Operation::Not, &[last, last]);
    instructions.resize(count - MOST_OUTPUTS, not);
    let outputs = 0..MOST_OUTPUTS;
    instructions.extend(outputs.map(|i| Instruction::new(Operation::Output, &[i, last])));
    Program {
        header,
        instructions,
    }
    .encode()
}

/// Rows and columns: mostly small ones, or an edge beside a small one, or two edges.
fn sizes(random: &mut Random) -> (usize, usize) {
    match random.below(20) {
        0 => (random.pick(&ROWS), random.pick(&COLUMNS)),
        1 | 2 => (random.pick(&ROWS), random.between(1, 9)),
        3 | 4 => (random.between(1, 9), random.pick(&COLUMNS)),
        5 => random::sizes(random),
        _ => (random.between(1, 9), random.between(1, 17)),
    }
}

/// A matrix: accepted, or once in a while above 2^n by the least amount.
pub fn matrix(random: &mut Random, stock: &Stock) -> Matrix {
    if random.once_in(300) {
        return random.pick(&stock.matrices);
    }
    let (rows, columns) = sizes(random);
    let above = random.once_in(20).then_some(());
    above
        .and_then(|()| random::matrix_just_above(random, rows, columns))
        .unwrap_or_else(|| random::matrix(random, rows, columns))
}

/// A program file: of a matrix, or any. All are accepted but one of the stock.
pub fn program(random: &mut Random, stock: &Stock) -> Vec<u8> {
    match random.below(1000) {
        0..=7 => random.pick(&stock.programs),
        8..=99 => {
            let (rows, columns) = sizes(random);
            translate(&random::matrix(random, rows, columns)).encode()
        }
        100..=399 => {
            let (rows, columns) = (random.between(1, 4), random.between(1, 4));
            translate(&random::matrix(random, rows, columns)).encode()
        }
        choice => {
            let body = random.below(16);
            let mut program = random::program(random, body);
            if choice % 4 == 0 {
                spread(random, &mut program);
            }
            program.encode()
        }
    }
}

/// Moves the registers and inputs that a program uses up to higher numbers, also to the highest.
fn spread(random: &mut Random, program: &mut Program) {
    let header = &mut program.header;
    let mut some = |most: usize| {
        let any = random.between(0, most);
        random.pick(&[any, any, most])
    };
    let registers = some(MOST_REGISTERS - header.registers);
    let inputs = some(MOST_INPUTS - header.inputs);
    header.registers += registers;
    header.inputs += inputs;
    for instruction in &mut program.instructions {
        for (role, operand) in instruction.form.roles.iter().zip(&mut instruction.operands) {
            *operand += match role {
                Role::To | Role::From => registers,
                Role::Input => inputs,
                Role::Output => 0,
            };
        }
    }
}

/// Packed strings of so many bits: any bits, or with the first bytes all 0 or all 1, so that they hit early or late.
pub fn strings(random: &mut Random, columns: usize, number: usize) -> Vec<u8> {
    let length = packed_length(columns);
    let mut strings = random.bytes(length * number);
    for string in strings.chunks_mut(length) {
        let alike = random.below(2 * length).saturating_sub(length);
        string[..alike].fill(random.pick(&[0, 255]));
        string[length - 1] &= 255 << (length * 8 - columns);
    }
    strings
}

/// Sets a spare bit in one of the strings, rather the first or the last, where they have any.
pub fn set_spare_bit(random: &mut Random, strings: &mut [u8], columns: usize) {
    let length = packed_length(columns);
    let spare = length * 8 - columns;
    if spare > 0 && strings.len() >= length {
        let number = strings.len() / length;
        let any = random.below(number);
        let string = random.pick(&[0, any, number - 1]);
        strings[(string + 1) * length - 1] |= 1 << random.below(spare);
    }
}

/// A length for a buffer that needs so many elements: exact, longer, and once in some times too short.
pub fn length(random: &mut Random, needed: usize, short_once_in: usize) -> usize {
    if random.once_in(short_once_in) {
        let less = random.below(needed.max(1));
        return random.pick(&[0, needed.saturating_sub(1), less]);
    }
    let longer = if random.once_in(200) {
        SIXTEEN_BITS
    } else {
        random.between(1, 20)
    };
    needed + random.pick(&[0, 0, 1, longer])
}

/// Cuts bytes, or puts any others behind them, to such a length.
pub fn fit(random: &mut Random, bytes: &mut Vec<u8>, short_once_in: usize) {
    let length = length(random, bytes.len(), short_once_in);
    bytes.resize_with(length, || random.word() as u8);
}

/// A number outside 1 to `most`, also one of which 16 or 32 bits are within.
pub fn outside(random: &mut Random, most: usize) -> usize {
    let within = random.between(1, most);
    let any = random.word() as usize | 1 << 63;
    random.pick(&[
        0,
        most + 1,
        255,
        SIXTEEN_BITS - 1,
        SIXTEEN_BITS,
        SIXTEEN_BITS + within,
        (1 << 32) + within,
        (1 << 63) + within,
        usize::MAX,
        usize::MAX - within,
        any,
    ])
}
