//! 01, "Files", and 02, order 8 and order 10: the description of a program, its bytes, and its
//! checks. 02, order 6: how many outputs so many rows take.

use crate::record::{expect_kind, field, put};
use crate::refusal::{refuse, Answer, INSTRUCTION, LENGTH, OPERAND, SHORT, SIZE, UNSET, UNWRITTEN};

/// The most registers of a program.
pub const MOST_REGISTERS: usize = 1_024;
/// The most inputs of a program (02, order 8): as many as a matrix has columns.
pub const MOST_INPUTS: usize = 192;
/// The most outputs of a program.
pub const MOST_OUTPUTS: usize = 8;
/// The most rows of a program (02, order 10): as many as a matrix has.
pub const MOST_ROWS: usize = 128;
/// The most instructions of a program (02, order 8).
pub const MOST_INSTRUCTIONS: usize = 262_144;
/// The kind of a program's header record.
pub const PROGRAM_KIND: usize = 16;
/// The length of a program's header record (02, order 10).
pub const PROGRAM_HEADER: usize = 16;

/// 02, order 6: from so many rows to so many need so many value bits.
pub const VALUE_BIT_CASES: [(usize, usize, usize); 8] = [
    (1, 1, 0),
    (2, 2, 1),
    (3, 4, 2),
    (5, 8, 3),
    (9, 16, 4),
    (17, 32, 5),
    (33, 64, 6),
    (65, 128, 7),
];

/// k: the bits needed to write m - 1, 0 for m = 1. Tests hold it to the cases.
pub fn value_bits(rows: usize) -> usize {
    (0..)
        .find(|&k| rows - 1 < 1 << k)
        .expect("some power of two is larger")
}

/// 02, order 10: whether so many outputs go with so many rows. Any number of rows may be asked for.
pub fn outputs_suit(rows: usize, outputs: usize) -> bool {
    (1..=MOST_ROWS).contains(&rows) && outputs == value_bits(rows) + 1
}

/// What an operand stands for.
#[derive(Clone, Copy, Debug, PartialEq, Eq)]
pub enum Role {
    /// A register that is written.
    To,
    /// A register that is read.
    From,
    /// An input number.
    Input,
    /// An output number.
    Output,
}

/// One row of the table of instructions.
#[derive(Debug, PartialEq, Eq)]
pub struct Form {
    pub operation: Operation,
    pub kind: usize,
    pub name: &'static str,
    pub roles: &'static [Role],
}

impl Form {
    /// The length of an instruction: length field, kind, operands.
    pub fn length(&self) -> usize {
        4 + 2 * self.roles.len()
    }
}

/// What an instruction does.
#[derive(Clone, Copy, Debug, PartialEq, Eq)]
pub enum Operation {
    Ones,
    Zero,
    Input,
    Not,
    And,
    Or,
    Output,
}

const fn form(
    operation: Operation,
    kind: usize,
    name: &'static str,
    roles: &'static [Role],
) -> Form {
    Form {
        operation,
        kind,
        name,
        roles,
    }
}

/// The table of instructions, kinds 1 to 7.
pub static FORMS: [Form; 7] = [
    form(Operation::Ones, 1, "ONES", &[Role::To]),
    form(Operation::Zero, 2, "ZERO", &[Role::To]),
    form(Operation::Input, 3, "INPUT", &[Role::To, Role::Input]),
    form(Operation::Not, 4, "NOT", &[Role::To, Role::From]),
    form(
        Operation::And,
        5,
        "AND",
        &[Role::To, Role::From, Role::From],
    ),
    form(Operation::Or, 6, "OR", &[Role::To, Role::From, Role::From]),
    form(Operation::Output, 7, "OUTPUT", &[Role::Output, Role::From]),
];

/// The table's row for an operation.
pub fn form_of(operation: Operation) -> &'static Form {
    let found = FORMS.iter().find(|form| form.operation == operation);
    found.expect("every operation has a row")
}

/// An instruction: its row of the table and its operands, the unused ones 0.
#[derive(Clone, Copy, Debug, PartialEq, Eq)]
pub struct Instruction {
    pub form: &'static Form,
    pub operands: [usize; 3],
}

impl Instruction {
    /// The instruction with these operands, as many as its kind takes.
    pub fn new(operation: Operation, operands: &[usize]) -> Self {
        let form = form_of(operation);
        assert_eq!(operands.len(), form.roles.len());
        let mut all = [0; 3];
        all[..operands.len()].copy_from_slice(operands);
        Instruction {
            form,
            operands: all,
        }
    }

    /// The operands with what each stands for.
    pub fn operands(&self) -> impl Iterator<Item = (Role, usize)> + '_ {
        self.form.roles.iter().copied().zip(self.operands)
    }

    /// The operands that have this role.
    pub fn with_role(&self, role: Role) -> impl Iterator<Item = usize> + '_ {
        let matching = self.operands().filter(move |operand| operand.0 == role);
        matching.map(|operand| operand.1)
    }

    /// Appends the instruction's record.
    pub fn encode(&self, file: &mut Vec<u8>) {
        put(file, self.form.length());
        put(file, self.form.kind);
        for (_, operand) in self.operands() {
            put(file, operand);
        }
    }
}

/// What a program's header says.
#[derive(Clone, Copy, Debug, PartialEq, Eq)]
pub struct Header {
    pub registers: usize,
    pub inputs: usize,
    pub outputs: usize,
    pub rows: usize,
    pub count: usize,
}

impl Header {
    /// Whether all five are within the limits of a program, and the outputs suit the rows.
    pub fn is_within_limits(&self) -> bool {
        (1..=MOST_REGISTERS).contains(&self.registers)
            && (1..=MOST_INPUTS).contains(&self.inputs)
            && (1..=MOST_OUTPUTS).contains(&self.outputs)
            && outputs_suit(self.rows, self.outputs)
            && self.count <= MOST_INSTRUCTIONS
    }

    /// The count that an operand of this role must be below.
    pub fn count_for(&self, role: Role) -> usize {
        match role {
            Role::To | Role::From => self.registers,
            Role::Input => self.inputs,
            Role::Output => self.outputs,
        }
    }

    /// The header record.
    pub fn encode(&self) -> Vec<u8> {
        let mut file = Vec::new();
        put(&mut file, PROGRAM_HEADER);
        put(&mut file, PROGRAM_KIND);
        put(&mut file, self.registers);
        put(&mut file, self.inputs);
        put(&mut file, self.outputs);
        put(&mut file, self.rows);
        let count = u32::try_from(self.count).expect("a count has 32 bits");
        file.extend_from_slice(&count.to_le_bytes());
        file
    }
}

/// A program: its header and its instructions.
#[derive(Clone, Debug, PartialEq, Eq)]
pub struct Program {
    pub header: Header,
    pub instructions: Vec<Instruction>,
}

impl Program {
    /// The program file.
    pub fn encode(&self) -> Vec<u8> {
        let mut file = self.header.encode();
        for instruction in &self.instructions {
            instruction.encode(&mut file);
        }
        file
    }

    /// The length of the program file.
    pub fn length(&self) -> usize {
        let lengths = self
            .instructions
            .iter()
            .map(|instruction| instruction.form.length());
        PROGRAM_HEADER + lengths.sum::<usize>()
    }
}

/// The program of a file, or its refusal: the header, then instruction by instruction, then left-
/// over bytes, then 10.
pub fn decode(file: &[u8]) -> Answer<Program> {
    let header = decode_header(file)?;
    let mut rest = &file[PROGRAM_HEADER..];
    let mut written = vec![false; header.registers];
    let mut set = vec![false; header.outputs];
    let mut instructions = Vec::new();
    for _ in 0..header.count {
        let instruction = decode_instruction(rest)?;
        check_operands(&header, &instruction, &written)?;
        instruction
            .with_role(Role::To)
            .for_each(|to| written[to] = true);
        instruction
            .with_role(Role::Output)
            .for_each(|output| set[output] = true);
        rest = &rest[instruction.form.length()..];
        instructions.push(instruction);
    }
    refuse(LENGTH, !rest.is_empty())?;
    refuse(UNSET, set.contains(&false))?;
    Ok(Program {
        header,
        instructions,
    })
}

/// The header of a program file: 1 and 2 of its first four bytes, then 1, 4 and 3 of the whole. 02,
/// order 10: here 4 is tried before 3.
fn decode_header(file: &[u8]) -> Answer<Header> {
    expect_kind(file, PROGRAM_KIND)?;
    refuse(SHORT, file.len() < PROGRAM_HEADER)?;
    refuse(LENGTH, field(file, 0) != PROGRAM_HEADER)?;
    let header = Header {
        registers: field(file, 4),
        inputs: field(file, 6),
        outputs: field(file, 8),
        rows: field(file, 10),
        count: field(file, 12) + (field(file, 14) << 16),
    };
    refuse(SIZE, !header.is_within_limits())?;
    Ok(header)
}

/// The instruction at the front of the bytes left: 1, 7. It is no first record, so that its kind is
/// tried after its shortness.
fn decode_instruction(rest: &[u8]) -> Answer<Instruction> {
    refuse(SHORT, rest.len() < 4)?;
    let (length, kind) = (field(rest, 0), field(rest, 2));
    refuse(SHORT, rest.len() < length)?;
    let form = FORMS
        .iter()
        .find(|form| form.kind == kind)
        .ok_or(INSTRUCTION)?;
    refuse(INSTRUCTION, length != form.length())?;
    let mut operands = [0; 3];
    for (i, operand) in operands.iter_mut().take(form.roles.len()).enumerate() {
        *operand = field(rest, 4 + 2 * i);
    }
    Ok(Instruction { form, operands })
}

/// The operands of one instruction: 8 for any of them, then 9.
fn check_operands(header: &Header, instruction: &Instruction, written: &[bool]) -> Answer<()> {
    let mut operands = instruction.operands();
    refuse(
        OPERAND,
        operands.any(|(role, operand)| operand >= header.count_for(role)),
    )?;
    let mut reads = instruction.with_role(Role::From);
    refuse(UNWRITTEN, reads.any(|from| !written[from]))
}

/// Checking: registers, inputs, outputs, rows and count of a program file.
pub fn check(file: &[u8]) -> Answer<Header> {
    decode(file).map(|program| program.header)
}
