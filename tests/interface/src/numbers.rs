//! The numbers of the header, the reference and the Rust binding are the same.

use crate::corkhollow;
use crate::trial::fail;
use reference::refusal::{
    BIT, BUFFER, CAP, INSTRUCTION, KIND, LENGTH, MULTIPLIER, OPERAND, POSITION, RESERVE, SHORT,
    SIGNER, SIZE, STEP, TABLE, TOTAL, UNSET, UNWRITTEN, WEIGHTLESS,
};
use reference::{cumulative, lanes, lent, matrix, pool, program, record, wide};
use std::mem::offset_of;

extern "C" {
    static through_numbers: [u64; HEADER_NUMBERS];
    static through_numbers_length: usize;
    static through_signer: [usize; 5];
    fn through_width(columns: usize) -> usize;
    fn through_matrix_length(rows: usize, columns: usize) -> usize;
}

/// The refusals and 0, eleven limits, three misses, five lengths.
const HEADER_NUMBERS: usize = REFUSALS.len() + 11 + 3 + 5;

/// The refusals and 0, by the reference.
const REFUSALS: [u32; 20] = [
    lent::DONE,
    SHORT,
    KIND,
    SIZE,
    LENGTH,
    BIT,
    TOTAL,
    INSTRUCTION,
    OPERAND,
    UNWRITTEN,
    UNSET,
    WEIGHTLESS,
    POSITION,
    BUFFER,
    MULTIPLIER,
    TABLE,
    STEP,
    SIGNER,
    CAP,
    RESERVE,
];

/// The most bytes of an instruction: length, kind, three operands.
const INSTRUCTION_BYTES: usize = 10;
const ENTRIES: usize = matrix::MOST_ROWS * matrix::MOST_COLUMNS;
const PROGRAM_BYTES: usize =
    program::PROGRAM_HEADER + program::MOST_INSTRUCTIONS * INSTRUCTION_BYTES;

/// What follows the refusals in the header: by the reference and by the binding.
fn others() -> [(usize, usize); HEADER_NUMBERS - REFUSALS.len()] {
    let matrix_bytes = matrix::file_length(matrix::MOST_ROWS, matrix::MOST_COLUMNS);
    let string_bytes = lanes::LANES * record::packed_length(matrix::MOST_COLUMNS);
    let (miss, signed_miss) = (lanes::MISS as usize, lanes::SIGNED_MISS as usize);
    let (multiplier, combined_miss) = (wide::MOST_MULTIPLIER, wide::COMBINED_MISS);
    [
        (lanes::LANES, corkhollow::LANES),
        (matrix::MOST_ROWS, corkhollow::ROWS),
        (matrix::MOST_COLUMNS, corkhollow::COLUMNS),
        (program::MOST_REGISTERS, corkhollow::REGISTERS),
        (program::MOST_INPUTS, corkhollow::INPUTS),
        (program::MOST_OUTPUTS, corkhollow::OUTPUTS),
        (program::MOST_INSTRUCTIONS, corkhollow::INSTRUCTIONS),
        (multiplier as usize, corkhollow::MOST_MULTIPLIER as usize),
        (cumulative::MOST_TABLE_COLUMNS, corkhollow::TABLE_COLUMNS),
        (pool::MOST_SIGNERS, corkhollow::SIGNERS),
        (pool::MOST_WORDS, corkhollow::POOL_WORDS),
        (miss, corkhollow::MISS as usize),
        (signed_miss, corkhollow::SIGNED_MISS as usize),
        (combined_miss as usize, corkhollow::COMBINED_MISS as usize),
        (ENTRIES, corkhollow::MOST_ENTRIES),
        (matrix_bytes, corkhollow::MOST_MATRIX_BYTES),
        (PROGRAM_BYTES, corkhollow::MOST_PROGRAM_BYTES),
        (string_bytes, corkhollow::MOST_STRING_BYTES),
        (cumulative::MOST_NUMBERS, corkhollow::MOST_TABLE_NUMBERS),
    ]
}

/// 02, order 8: the limits that it moves. And order 10: the most bytes of a program, a header of 16 and 262,144 instructions of 10.
const MOVED: [(usize, usize); 4] = [
    (192, corkhollow::COLUMNS),
    (192, corkhollow::INPUTS),
    (262_144, corkhollow::INSTRUCTIONS),
    (2_621_456, corkhollow::MOST_PROGRAM_BYTES),
];

/// Ends the tests where a number differs.
pub fn compare() {
    for (wanted, by_binding) in MOVED {
        same("a limit that 02 moves", wanted, by_binding);
    }
    // SAFETY: calls.c defines both, and the length is compared before the numbers are read.
    let length = unsafe { through_numbers_length };
    same("the header's numbers", HEADER_NUMBERS, length);
    let header = unsafe { through_numbers };
    for (i, refusal) in REFUSALS.into_iter().enumerate() {
        same("a refusal", i, refusal as usize);
        same("a refusal of the header", i, header[i] as usize);
    }
    for (i, (by_reference, by_binding)) in others().into_iter().enumerate() {
        let place = format!("number {} of the header", REFUSALS.len() + i);
        same(&place, by_reference, header[REFUSALS.len() + i] as usize);
        same(
            &format!("{place}, in the binding"),
            by_reference,
            by_binding,
        );
    }
    lengths();
    layout();
}

/// The bytes of a signer's record, its alignment, and where reserve, cap and drawn lie: in C, in the binding and in the reference, whose
/// records are lent to both.
fn layout() {
    use corkhollow::Signer as Bound;
    use pool::Signer;
    let wanted = [12, 4, 0, 4, 8];
    let fields = [
        offset_of!(Bound, reserve),
        offset_of!(Bound, cap),
        offset_of!(Bound, drawn),
    ];
    let by_binding = [&[size_of::<Bound>(), align_of::<Bound>()], &fields[..]].concat();
    let fields = [
        offset_of!(Signer, reserve),
        offset_of!(Signer, cap),
        offset_of!(Signer, drawn),
    ];
    let by_reference = [&[size_of::<Signer>(), align_of::<Signer>()], &fields[..]].concat();
    // SAFETY: calls.c defines five numbers.
    let by_header = unsafe { through_signer };
    for i in 0..wanted.len() {
        same("the layout of a record in C", wanted[i], by_header[i]);
        same("the layout in the binding", wanted[i], by_binding[i]);
        same("the layout in the reference", wanted[i], by_reference[i]);
    }
}

/// The lengths of strings and matrix files, for all sizes.
fn lengths() {
    for columns in 1..=matrix::MOST_COLUMNS {
        let width = record::packed_length(columns);
        // SAFETY: these take any numbers.
        same("a width of the header", width, unsafe {
            through_width(columns)
        });
        same("a width of the binding", width, corkhollow::width(columns));
        for rows in 1..=matrix::MOST_ROWS {
            let length = matrix::file_length(rows, columns);
            let by_header = unsafe { through_matrix_length(rows, columns) };
            let by_binding = corkhollow::matrix_length(rows, columns);
            same("a matrix length of the header", length, by_header);
            same("a matrix length of the binding", length, by_binding);
        }
    }
}

fn same(what: &str, wanted: usize, found: usize) {
    if wanted != found {
        fail(&format!(
            "difference: {what} is {found}, and must be {wanted}"
        ));
    }
}
