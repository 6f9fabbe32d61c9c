//! Damaged files: every length, every field, every bit of small files, and two faults at once.

use super::cases::{check, compile, draw, draw_signed, export, read, resume, rewrite, spent};
use super::cases::{start, string_for, walk};
use super::line::Line;
use super::sound::around;
use crate::compiler::translate;
use crate::damage::{
    cuts, edited, instruction_edits, matrix_edits, matrix_limit_edits, program_edits,
    program_header_edits, program_limit_edits, turned_bits, Edit,
};
use crate::matrix::Matrix;
use crate::program::{Program, PROGRAM_HEADER};
use crate::random::{self, Random};

/// The cases that are the same at every scale: each length of the smallest files, some of the edits
/// of their fields, and each refusal from each operation that takes a file.
pub fn fixed(put: &mut dyn FnMut(Line)) {
    let small = small_matrix();
    for edit in matrix_edits(&small).into_iter().chain(cuts(&small)) {
        put(read(&edited(&small, &[edit]), 64));
    }
    let least = least_program();
    let some = instruction_edits(&least).into_iter().step_by(6);
    let edits = some.chain(program_header_edits(&least));
    for edit in edits.chain(cuts(&least)) {
        put(check(&edited(&least, &[edit])));
    }
    let of_matrix = matrix_faults(&small);
    faults(
        &small,
        &of_matrix,
        all_uses_of_matrix,
        |file| read(file, 0),
        put,
    );
    // Each with the next, and strings that are too short and have spare bits set, or a row that
    // there is not and no room.
    for pair in of_matrix.windows(2) {
        let damaged = edited(&edited(&small, &pair[0]), &pair[1]);
        put(spent(&damaged, &[0xff; 63]));
        put(string_for(&damaged, 3, 0));
    }
    let of_program = program_faults(&least);
    faults(&least, &of_program, all_uses_of_program, check, put);
    program_rules(put);
}

/// Every fault alone, given to each operation that takes the file, and every two of them together,
/// given to one: these try the order of the checks. Of a cut and another kind it is 2 that answers
/// (02, order 3).
fn faults(
    file: &[u8],
    faults: &[Vec<Edit>],
    uses: fn(&[u8], &mut dyn FnMut(Line)),
    one_use: fn(&[u8]) -> Line,
    put: &mut dyn FnMut(Line),
) {
    for (i, first) in faults.iter().enumerate() {
        uses(&edited(file, first), put);
        for second in &faults[i + 1..] {
            put(one_use(&edited(&edited(file, first), second)));
        }
    }
}

/// Edits after each of which rows 10, 01, 01 are refused, with 1, 2, 3, 4, 5 and 6.
fn matrix_faults(file: &[u8]) -> Vec<Vec<Edit>> {
    let field = |at: usize, value: u16| vec![Edit::Field { at, value }];
    vec![
        vec![Edit::Cut(file.len() - 1)],
        field(2, 16),
        field(4, 129),
        field(6, 9),
        vec![Edit::Bit { at: 8, bit: 5 }],
        vec![Edit::Bit { at: 9, bit: 7 }],
    ]
}

/// Edits after each of which the program of one row of one column is refused, with 1, 2, 4, 3, 3, 7,
/// 8, 9 and 10. The 1 is its last instruction's, the 4 that of the header before 02, order 10, and of
/// the two 3 the second is its rows', which its outputs do not match.
fn program_faults(file: &[u8]) -> Vec<Vec<Edit>> {
    let field = |at: usize, value: u16| Edit::Field { at, value };
    let (first, second, last) = (PROGRAM_HEADER, PROGRAM_HEADER + 6, file.len() - 8);
    let output = Edit::Remove {
        at: last,
        length: 8,
    };
    vec![
        vec![Edit::Cut(file.len() - 1)],
        vec![field(2, 32)],
        vec![field(0, 14)],
        vec![field(8, 9)],
        vec![field(10, 2)],
        vec![field(first + 2, 8)],
        vec![field(second + 4, 6)],
        vec![field(first + 4, 5)],
        vec![output, field(12, 8)],
    ]
}

/// A matrix file given to each operation that takes one, with nothing else in order.
pub fn all_uses_of_matrix(file: &[u8], put: &mut dyn FnMut(Line)) {
    put(read(file, 0));
    put(walk(file, &[]));
    put(spent(file, &[]));
    put(compile(file, 0));
    put(rewrite(file));
    put(export(file, 0));
    put(string_for(file, usize::MAX, 0));
}

/// A program file given to each operation that takes one, with nothing else in order.
pub fn all_uses_of_program(file: &[u8], put: &mut dyn FnMut(Line)) {
    put(check(file));
    put(start(file, &[], 0, 0, 0));
    put(resume(file, &[], &[], &[], 99, 0));
    put(draw(file, &[], 0));
    put(draw_signed(file, &[], 0, 0));
}

/// All single faults of some small files.
pub fn thorough(put: &mut dyn FnMut(Line)) {
    let wide = Matrix::from_texts(&["10000000001", "01111111111"]).encode();
    for file in [small_matrix(), wide] {
        let edits = matrix_edits(&file).into_iter().chain(cuts(&file));
        let edits = edits.chain(matrix_limit_edits(&file));
        for edit in edits.chain(turned_bits(&file)) {
            let damaged = edited(&file, &[edit]);
            put(read(&damaged, 22));
            put(walk(&damaged, &[0x7f, 0xff]));
            put(spent(&damaged, &[0x40; 128]));
            put(compile(&damaged, 0));
            put(export(&damaged, 4));
            put(string_for(&damaged, 1, 2));
        }
    }
    let three = translate(&Matrix::from_texts(&["10", "01", "01"])).encode();
    for file in [least_program(), three] {
        let edits = program_edits(&file).into_iter().chain(cuts(&file));
        let edits = edits.chain(program_limit_edits(&file));
        for edit in edits.chain(turned_bits(&file)) {
            put(check(&edited(&file, &[edit])));
        }
    }
}

/// Three rows of two columns.
pub fn small_matrix() -> Vec<u8> {
    Matrix::from_texts(&["10", "01", "01"]).encode()
}

/// The program of one row of one column.
pub fn least_program() -> Vec<u8> {
    translate(&Matrix::from_texts(&["1"])).encode()
}

/// Programs that break the rules on reading, writing and outputs, instruction by instruction.
fn program_rules(put: &mut dyn FnMut(Line)) {
    for code in [
        &[][..],
        &[10, 0, 5, 0, 0, 0, 0, 0, 0, 0],
        &[6, 0, 1, 0, 0, 0],
        &[6, 0, 1, 0, 1, 0, 8, 0, 7, 0, 0, 0, 0, 0],
        &[6, 0, 2, 0, 0, 0, 8, 0, 7, 0, 0, 0, 0, 0],
        &[6, 0, 2, 0, 0, 0, 8, 0, 7, 0, 0, 0, 1, 0],
        &[8, 0, 7, 0, 0, 0, 0, 0, 6, 0, 1, 0, 0, 0],
        // 8 in the last operand comes before 9 in the first one read.
        &[10, 0, 6, 0, 0, 0, 1, 0, 2, 0],
        &[10, 0, 6, 0, 2, 0, 1, 0, 1, 0],
        &[8, 0, 7, 0, 1, 0, 1, 0],
        &[8, 0, 3, 0, 0, 0, 1, 0],
        // Lengths that are not the kind's, with and without the bytes.
        &[0, 0, 1, 0],
        &[3, 0, 1, 0],
        &[4, 0, 1, 0],
        &[8, 0, 1, 0, 0, 0],
        &[8, 0, 1, 0, 0, 0, 0, 0],
        &[255, 255, 9, 0, 0, 0],
        &[6, 0, 0, 0, 9, 0],
        &[6, 0, 8, 0, 9, 0],
        &[6, 0, 1, 1, 9, 0],
        &[6, 0, 1],
    ] {
        for count in 0..=2 {
            let mut file = vec![16, 0, 16, 0, 2, 0, 1, 0, 1, 0, 1, 0, count, 0, 0, 0];
            file.extend_from_slice(code);
            put(check(&file));
        }
    }
    // Output 0 is set twice, and others never.
    for outputs in 1..=3 {
        let mut file = vec![16, 0, 16, 0, 2, 0, 1, 0, outputs, 0, outputs, 0, 3, 0, 0, 0];
        file.extend([6, 0, 1, 0, 1, 0]);
        file.extend([8, 0, 7, 0, 0, 0, 1, 0].repeat(2));
        put(check(&file));
    }
}

/// Random cases: files of random matrices and programs with one or two edits, given to every
/// operation that takes them.
pub fn round(random: &mut Random, put: &mut dyn FnMut(Line)) {
    for _ in 0..30 {
        let (rows, columns) = (random.between(1, 5), random.between(1, 20));
        let file = random::matrix(random, rows, columns).encode();
        let edits = matrix_edits(&file);
        let damaged = damage(random, &file, &edits);
        put(match random.below(6) {
            0 => compile(&damaged, random.pick(&[0, 100_000])),
            1 => walk(&damaged, &vec![0xff; random.below(4)]),
            2 => rewrite(&damaged),
            _ => read(&damaged, random.pick(&[0, 1, 128])),
        });
    }
    for _ in 0..20 {
        let program = random_program(random);
        let file = program.encode();
        let damaged = if random.once_in(3) {
            damage(random, &file, &program_header_edits(&file))
        } else {
            damage(random, &file, &program_edits(&file))
        };
        put(use_of(random, &program, &damaged));
    }
    for _ in 0..4 {
        let length = random.below(40);
        let bytes = random.bytes(length);
        put(read(&bytes, 64));
        put(check(&bytes));
    }
    for _ in 0..10 {
        put(spent_on(random));
    }
}

/// The bits that 64 strings spend on a matrix file that is sound in half of the cases: the strings
/// one byte short, exact or longer, in half of the cases with a bit turned over, spare or not.
fn spent_on(random: &mut Random) -> Line {
    let (rows, columns) = (random.between(1, 5), random.between(1, 20));
    let matrix = random::matrix(random, rows, columns);
    let mut strings = random::strings(random, &matrix);
    if random.bit() == 1 {
        let at = random.below(strings.len());
        let bit = random.below(8) as u8;
        Edit::Bit { at, bit }.apply(&mut strings);
    }
    strings.resize(around(random, strings.len()), 0xff);
    let mut file = matrix.encode();
    if random.bit() == 1 {
        file = damage(random, &file, &matrix_edits(&file));
    }
    spent(&file, &strings)
}

/// A short program: one that a small matrix compiles to, or any.
fn random_program(random: &mut Random) -> Program {
    if random.bit() == 0 {
        let (rows, columns) = (random.between(1, 2), random.between(1, 2));
        translate(&random::matrix(random, rows, columns))
    } else {
        let body = random.below(8);
        random::program(random, body)
    }
}

/// The file with one edit of the list, or with two.
fn damage(random: &mut Random, file: &[u8], edits: &[Edit]) -> Vec<u8> {
    let first = random.pick(edits);
    let second = random.pick(edits);
    if random.once_in(3) {
        edited(file, &[first])
    } else {
        edited(file, &[first, second])
    }
}

/// An operation on a program file, with less lent than the program asks for in half of the cases.
fn use_of(random: &mut Random, program: &Program, file: &[u8]) -> Line {
    let header = &program.header;
    let less = usize::from(random.bit());
    let inputs = random.words(header.inputs - less);
    match random.below(6) {
        0 => start(file, &inputs, header.registers, header.outputs, 3),
        1 => {
            let registers = random.words(header.registers - less);
            let outputs = random.words(header.outputs);
            let position = random.below(header.count + 2) as u32;
            resume(file, &inputs, &registers, &outputs, position, 2)
        }
        2 => draw(file, &[0xff; 64][less..], 64),
        _ => check(file),
    }
}
