//! Faults of matrix files and program files. Each breaks a rule where the file allows it; two or three of them at once try the order of
//! the checks.

use crate::inputs::{set_spare_bit, SIXTEEN_BITS};
use reference::damage::{
    matrix_edits, matrix_limit_edits, program_edits, program_limit_edits, Edit,
};
use reference::matrix::{self, MATRIX_HEADER, MOST_COLUMNS, MOST_ROWS};
use reference::program::{
    self, MOST_INPUTS, MOST_INSTRUCTIONS, MOST_OUTPUTS, MOST_REGISTERS, PROGRAM_HEADER,
};
use reference::random::{self, Random};
use reference::record::{field, packed_length};

/// Up to this length the reference's list of all edits of a file is short enough.
const SMALL: usize = 120;

/// The 16-bit field at a byte, or 0 where the file ends before.
pub fn field_or_0(file: &[u8], at: usize) -> usize {
    if at + 2 <= file.len() {
        field(file, at)
    } else {
        0
    }
}

/// Sets the 16-bit field at a byte, where there is one, to the low bits of a number.
fn set(file: &mut Vec<u8>, at: usize, value: usize) {
    let value = value as u16;
    Edit::Field { at, value }.apply(file);
}

/// Damages a file not at all, or by one fault, two or three; or puts anything in its place.
pub fn some_faults(random: &mut Random, file: &mut Vec<u8>, fault: fn(&mut Random, &mut Vec<u8>)) {
    for _ in 0..random.pick(&[0, 0, 0, 0, 1, 1, 1, 2, 2, 2, 3]) {
        fault(random, file);
    }
    if random.once_in(100) {
        let length = random.below(40);
        *file = random.bytes(length);
    }
}

/// One fault of a matrix file.
pub fn of_matrix(random: &mut Random, file: &mut Vec<u8>) {
    match random.below(12) {
        0 => cut(random, file),
        1 => longer_field(random, file),
        2 => kind(random, file),
        3 => matrix_size(random, file),
        4 => matrix_length(random, file),
        5 => leave_over(random, file),
        6 | 7 => spare_bit(random, file),
        8 => more_ones(random, file),
        9 => swap_fields(random, file, 4),
        10 => foreign(random, file, any_program),
        _ => any_edit(random, file, matrix::check(file).is_ok(), edits_of_matrix),
    }
}

/// One fault of a program file.
pub fn of_program(random: &mut Random, file: &mut Vec<u8>) {
    match random.below(19) {
        0 => cut(random, file),
        1 => kind(random, file),
        2 => program_size(random, file),
        3 => program_length(random, file),
        4 => leave_over(random, file),
        5 => count(random, file),
        6 | 7 => instruction_kind(random, file),
        8 => instruction_length(random, file),
        9 | 10 => operand(random, file),
        11 => unwritten(random, file),
        12 => unset(random, file),
        13 => move_instruction(random, file),
        14 => swap_fields(random, file, 8),
        15 => foreign(random, file, any_matrix),
        16 | 17 => rows(random, file),
        _ => any_edit(random, file, program::check(file).is_ok(), edits_of_program),
    }
}

/// The reference's edits of a matrix file, also those next to the limit of its columns.
fn edits_of_matrix(file: &[u8]) -> Vec<Edit> {
    [matrix_edits(file), matrix_limit_edits(file)].concat()
}

/// The reference's edits of a program file, also those next to the limits of its inputs and instructions.
fn edits_of_program(file: &[u8]) -> Vec<Edit> {
    [program_edits(file), program_limit_edits(file)].concat()
}

/// 1: only the first bytes.
fn cut(random: &mut Random, file: &mut Vec<u8>) {
    let length = file.len();
    let any = random.below(length + 1);
    let less = length.saturating_sub(1);
    file.truncate(random.pick(&[0, 1, 3, 4, 7, 8, 13, 14, 15, 16, less, less, any, any, any]));
}

/// 1: a length field above what is there.
fn longer_field(random: &mut Random, file: &mut Vec<u8>) {
    let more = file.len() + random.between(1, 40);
    let length = random.pick(&[file.len() + 1, more, 65_535]);
    set(file, 0, length);
}

/// 2: another kind.
fn kind(random: &mut Random, file: &mut Vec<u8>) {
    let any = random.below(65_536);
    let kinds = [0, 1, 15, 16, 17, 31, 32, 33, 272, 288, 4_096, 8_192, any];
    set(file, 2, random.pick(&kinds));
}

/// 2, or 1 under four bytes: a file of the other sort, or this one with a kind that is mostly another; mostly only the first bytes of it
/// (02, order 3).
fn foreign(random: &mut Random, file: &mut Vec<u8>, other_sort: fn(&mut Random) -> Vec<u8>) {
    if random.bit() == 0 {
        *file = other_sort(random);
    } else {
        kind(random, file);
    }
    if !random.once_in(4) {
        file.truncate(random.below(PROGRAM_HEADER + 2));
    }
}

/// A small matrix file.
fn any_matrix(random: &mut Random) -> Vec<u8> {
    let (rows, columns) = (random.between(1, 9), random.between(1, 17));
    random::matrix(random, rows, columns).encode()
}

/// A small program file.
fn any_program(random: &mut Random) -> Vec<u8> {
    let body = random.below(16);
    random::program(random, body).encode()
}

/// 3: rows or columns outside, and in some of the cases a length field that goes with them.
fn matrix_size(random: &mut Random, file: &mut Vec<u8>) {
    let (at, most) = random.pick(&[(4, MOST_ROWS), (6, MOST_COLUMNS)]);
    let outside = [0, most + 1, most + 2, 255, 256, 257, 448, 32_769, 65_535];
    set(file, at, random.pick(&outside));
    if random.once_in(3) {
        required_length(file);
    }
}

/// The length field that the sizes require.
fn required_length(file: &mut Vec<u8>) {
    let width = packed_length(field_or_0(file, 6));
    set(file, 0, MATRIX_HEADER + field_or_0(file, 4) * width);
}

/// 4: a length field too small, or sizes that require another.
fn matrix_length(random: &mut Random, file: &mut Vec<u8>) {
    let less = random.below(file.len() + 1);
    match random.below(4) {
        0 => set(file, 0, less),
        1 => set(file, 0, random.pick(&[0, 7, 8])),
        2 => set(file, 4, random.between(1, MOST_ROWS)),
        _ => set(file, 6, random.between(1, MOST_COLUMNS)),
    }
}

/// 4: bytes left over.
fn leave_over(random: &mut Random, file: &mut Vec<u8>) {
    let number = if random.once_in(50) {
        SIXTEEN_BITS
    } else {
        random.between(1, 20)
    };
    match random.below(3) {
        0 => file.extend(random.bytes(number)),
        1 => file.extend([6, 0, 1, 0, 0, 0]),
        _ => file.resize(file.len() + number, 0),
    }
}

/// 5: a spare bit of a row.
fn spare_bit(random: &mut Random, file: &mut [u8]) {
    let columns = field_or_0(file, 6);
    if columns > 0 && file.len() > MATRIX_HEADER {
        set_spare_bit(random, &mut file[MATRIX_HEADER..], columns);
    }
}

/// 6: more ones, rather in the first columns, so that the sum passes 2^n.
fn more_ones(random: &mut Random, file: &mut [u8]) {
    let (rows, columns) = (field_or_0(file, 4), field_or_0(file, 6));
    for _ in 0..random.between(1, 24) {
        let row = random.below(rows.max(1));
        let column = random.below(columns.max(1)) * random.below(4) / 3;
        let at = MATRIX_HEADER + row * packed_length(columns) + column / 8;
        if at < file.len() {
            file[at] |= 128 >> (column % 8);
        }
    }
}

/// Two fields of the header, each in the other's place.
fn swap_fields(random: &mut Random, file: &mut Vec<u8>, fields: usize) {
    let (one, other) = (2 * random.below(fields), 2 * random.below(fields));
    let (first, second) = (field_or_0(file, one), field_or_0(file, other));
    set(file, one, second);
    set(file, other, first);
}

/// One bit turned over, or one of the reference's edits, which it makes of small sound files.
fn any_edit(random: &mut Random, file: &mut Vec<u8>, sound: bool, edits: fn(&[u8]) -> Vec<Edit>) {
    if sound && file.len() <= SMALL && random.bit() == 0 {
        random.pick(&edits(file)).apply(file);
    } else if !file.is_empty() {
        let at = random.below(file.len());
        file[at] ^= 1 << random.below(8);
    }
}

/// 3: registers, inputs, outputs or instructions outside.
fn program_size(random: &mut Random, file: &mut Vec<u8>) {
    let sizes = [(4, MOST_REGISTERS), (6, MOST_INPUTS), (8, MOST_OUTPUTS)];
    let (at, most) = random.pick(&sizes);
    let value = random.pick(&[0, most + 1, most + 2, most + 256, 65_535]);
    if random.below(4) > 0 {
        return set(file, at, value);
    }
    let most = MOST_INSTRUCTIONS;
    let count = random.pick(&[most + 1, most + 2, 2 * most, 1 << 31, (1 << 32) - 1]);
    set(file, 12, count);
    set(file, 14, count >> 16);
}

/// 3: rows outside, or rows that take other outputs, or outputs that other rows take; or other rows that the outputs suit.
fn rows(random: &mut Random, file: &mut Vec<u8>) {
    let within = random.between(1, MOST_ROWS);
    let held = field_or_0(file, 10);
    let (less, more) = (held.saturating_sub(1), held + 1);
    match random.below(4) {
        0 => set(file, 8, random.between(1, MOST_OUTPUTS)),
        1 => {
            let most = MOST_ROWS;
            let outside = [0, most + 1, 255, 256, 256 + within, within << 8, 65_535];
            set(file, 10, random.pick(&outside));
        }
        _ => set(file, 10, random.pick(&[within, within, less, more])),
    }
}

/// 4: another length of the header.
fn program_length(random: &mut Random, file: &mut Vec<u8>) {
    let length = random.pick(&[0, 1, 6, 10, 14, 14, 15, 17, 18, 272, 4_096, 65_535]);
    set(file, 0, length);
}

/// 1 or 4: more instructions counted than there are, or fewer.
fn count(random: &mut Random, file: &mut Vec<u8>) {
    let held = field_or_0(file, 12);
    let less = random.below(held + 1);
    let count = random.pick(&[held + 1, held + 2, held.saturating_sub(1), less, 0]);
    set(file, 12, count);
    // up to three times 65,536 more are within the limit, and refused only where they are missing
    if random.once_in(8) {
        set(file, 14, random.between(1, 3));
    }
}

/// Where the instructions begin, as far as their lengths lead.
fn places(file: &[u8]) -> Vec<usize> {
    let mut places = Vec::new();
    let mut at = PROGRAM_HEADER;
    while at + 4 <= file.len() && [6, 8, 10].contains(&field(file, at)) {
        places.push(at);
        at += field(file, at);
    }
    places
}

/// One of the instructions whose kind is at least this: from 4 on the last operand is a register that is read.
fn place(random: &mut Random, file: &[u8], least_kind: usize) -> Option<usize> {
    let mut places = places(file);
    places.retain(|&at| field(file, at + 2) >= least_kind);
    (!places.is_empty()).then(|| random.pick(&places))
}

/// 7: a kind that there is not, or another one's.
fn instruction_kind(random: &mut Random, file: &mut Vec<u8>) {
    if let Some(at) = place(random, file, 0) {
        let held = field(file, at + 2);
        let other = random.between(1, 7);
        let kind = random.pick(&[0, 8, 9, other, held + 256, held << 8, 65_535]);
        set(file, at + 2, kind);
    }
}

/// 7, or 1 where the bytes are not there: another length.
fn instruction_length(random: &mut Random, file: &mut Vec<u8>) {
    if let Some(at) = place(random, file, 0) {
        let held = field(file, at);
        let any = random.below(14);
        let length = random.pick(&[0, 3, 4, any, any, held + 256, 65_535]);
        set(file, at, length);
    }
}

/// 8: an operand at or above a count.
fn operand(random: &mut Random, file: &mut Vec<u8>) {
    if let Some(at) = place(random, file, 0) {
        let operands = (field(file, at) - 4) / 2;
        let operand = at + 4 + 2 * random.below(operands);
        let count = field_or_0(file, random.pick(&[4, 6, 8]));
        let held = field_or_0(file, operand);
        let value = random.pick(&[count, count, count + 1, held + 256, 1_024, 65_535]);
        set(file, operand, value);
    }
}

/// 9: a register more, and one of the instructions reads it; or any register read. In some of the cases with 8 in the same instruction.
fn unwritten(random: &mut Random, file: &mut Vec<u8>) {
    let Some(at) = place(random, file, 4) else {
        return;
    };
    let registers = field_or_0(file, 4);
    let last = at + field(file, at) - 2;
    if random.once_in(4) {
        set(file, last, random.below(registers.max(1)));
        return;
    }
    set(file, 4, registers + 1);
    set(file, last, registers);
    if random.once_in(4) {
        set(file, last - 2, registers + 1);
    }
}

/// 10: an output more, with the most rows that take it, or one of them set in place of another, or never.
fn unset(random: &mut Random, file: &mut Vec<u8>) {
    let outputs = field_or_0(file, 8);
    match (random.below(3), place(random, file, 7)) {
        (0, Some(at)) => set(file, at + 4, random.below(outputs.max(1))),
        (1, Some(at)) => remove(file, at),
        _ => {
            set(file, 8, outputs + 1);
            set(file, 10, 1 << outputs.min(MOST_OUTPUTS));
        }
    }
}

/// Takes an instruction out, and counts one less.
fn remove(file: &mut Vec<u8>, at: usize) {
    let length = field(file, at);
    Edit::Remove { at, length }.apply(file);
    let count = field_or_0(file, 12);
    set(file, 12, count.wrapping_sub(1));
}

/// One instruction before another, where it may read what is not yet written; or gone.
fn move_instruction(random: &mut Random, file: &mut Vec<u8>) {
    let (Some(from), Some(to)) = (place(random, file, 0), place(random, file, 0)) else {
        return;
    };
    let end = from + field(file, from);
    if end > file.len() || random.once_in(3) {
        remove(file, from);
    } else if to < from {
        file[to..end].rotate_right(end - from);
    }
}
