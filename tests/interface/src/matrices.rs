//! The operations on matrix files: read, write, walk, spent, compile.

use crate::faults::{of_matrix, some_faults};
use crate::inputs::{fit, length, matrix, outside, set_spare_bit, Stock};
use crate::lanes::string_faults;
use crate::memory::Memory;
use crate::trial::Trial;
use reference::compiler::translate;
use reference::lent;
use reference::matrix::{file_length, Matrix, MOST_COLUMNS, MOST_ROWS};
use reference::random::{self, Random};
use reference::record::pack;

/// A matrix file, sound or damaged, with the matrix that it was made of.
pub fn some_file(random: &mut Random, stock: &Stock) -> (Vec<u8>, Matrix) {
    let matrix = matrix(random, stock);
    let mut file = matrix.encode();
    some_faults(random, &mut file, of_matrix);
    (file, matrix)
}

pub fn read(trial: &mut Trial, random: &mut Random, stock: &Stock) {
    let (file, matrix) = some_file(random, stock);
    let entries = length(random, matrix.entries.len(), 4);
    read_on(trial, random, &file, entries);
}

/// Reads a file into room for so many entries. Returns the number that engine and reference return, as each function `.._on` does; some
/// return besides what is left.
pub fn read_on(trial: &mut Trial, random: &mut Random, file: &[u8], entries: usize) -> u32 {
    let mut memory = Memory::new(random);
    let file = memory.lend("file", file);
    let entries = memory.room("entries", entries);
    let rows = memory.number("rows");
    let columns = memory.number("columns");
    trial.compare(
        &memory,
        // SAFETY, here and below: what is lent lies apart in the block, which lives as long as the call.
        |view| unsafe {
            lent::read(
                view.slice(file),
                view.slice_mut(entries),
                view.number(rows),
                view.number(columns),
            )
        },
        |table, view| unsafe {
            (table.read)(
                view.pointer(file),
                file.length,
                view.pointer(entries),
                entries.length,
                view.pointer(rows),
                view.pointer(columns),
            )
        },
    )
}

/// What is written: sizes and entries.
struct Written {
    rows: usize,
    columns: usize,
    entries: Vec<u8>,
}

/// A matrix to be written: sound, or with sizes outside, other sizes, entries that are no bits, or too many ones.
fn some_matrix(random: &mut Random, stock: &Stock) -> Written {
    let matrix = matrix(random, stock);
    let mut written = Written {
        rows: matrix.rows,
        columns: matrix.columns,
        entries: matrix.entries,
    };
    fit(random, &mut written.entries, 8);
    for _ in 0..random.pick(&[0, 0, 0, 1, 1, 2, 2, 3]) {
        matrix_fault(random, &mut written);
    }
    written
}

/// One fault of a matrix to be written.
fn matrix_fault(random: &mut Random, written: &mut Written) {
    let entries = &mut written.entries;
    match random.below(7) {
        0 => written.rows = outside(random, MOST_ROWS),
        1 => written.columns = outside(random, MOST_COLUMNS),
        2 => entries.truncate(random.below(entries.len() + 1)),
        3 | 4 if !entries.is_empty() => {
            let at = random.below(entries.len());
            entries[at] = random.pick(&[2, 3, 128, 254, 255]);
        }
        5 => {
            let ones = random.between(0, entries.len().min(40));
            let step = random.between(1, 20);
            entries
                .iter_mut()
                .step_by(step)
                .take(ones)
                .for_each(|entry| *entry |= 1);
        }
        _ => std::mem::swap(&mut written.rows, &mut written.columns),
    }
}

pub fn write(trial: &mut Trial, random: &mut Random, stock: &Stock) {
    let Written {
        rows,
        columns,
        entries,
    } = some_matrix(random, stock);
    let needed = file_length(rows.min(MOST_ROWS), columns.min(MOST_COLUMNS));
    let file = length(random, needed, 5);
    write_on(trial, random, (rows, columns), &entries, file);
}

/// Writes entries into room for a file of so many bytes. Returns the file too.
pub fn write_on(
    trial: &mut Trial,
    random: &mut Random,
    (rows, columns): (usize, usize),
    entries: &[u8],
    file: usize,
) -> (u32, Vec<u8>) {
    let mut memory = Memory::new(random);
    memory.note("rows", rows as u64);
    memory.note("columns", columns as u64);
    let entries = memory.lend("entries", entries);
    let file = memory.room("file", file);
    let written = memory.number("length");
    let returned = trial.compare(
        &memory,
        |view| unsafe {
            let (file, written) = (view.slice_mut(file), view.number(written));
            lent::write(rows, columns, view.slice(entries), file, written)
        },
        |table, view| unsafe {
            (table.write)(
                rows,
                columns,
                view.pointer(entries),
                entries.length,
                view.pointer(file),
                file.length,
                view.pointer(written),
            )
        },
    );
    (returned, trial.laid(returned, file, written))
}

pub fn walk(trial: &mut Trial, random: &mut Random, stock: &Stock) {
    let (file, matrix) = some_file(random, stock);
    let mut string = pack(&random::string(random, &matrix));
    if random.once_in(8) {
        set_spare_bit(random, &mut string, matrix.columns);
    }
    fit(random, &mut string, 6);
    walk_on(trial, random, &file, &string);
}

/// Walks on a string. Returns the row too, as it is left.
pub fn walk_on(trial: &mut Trial, random: &mut Random, file: &[u8], string: &[u8]) -> (u32, usize) {
    let (returned, row, _) = walked_on(trial, random, file, string);
    (returned, row)
}

/// Walks on a string. Returns the row and the columns used too, as they are left.
pub fn walked_on(
    trial: &mut Trial,
    random: &mut Random,
    file: &[u8],
    string: &[u8],
) -> (u32, usize, usize) {
    let mut memory = Memory::new(random);
    let file = memory.lend("file", file);
    let string = memory.lend("string", string);
    let row = memory.number("row");
    let used = memory.number("used");
    let returned = trial.compare(
        &memory,
        |view| unsafe {
            let (row, used) = (view.number(row), view.number(used));
            lent::walk(view.slice(file), view.slice(string), row, used)
        },
        |table, view| unsafe {
            (table.walk)(
                view.pointer(file),
                file.length,
                view.pointer(string),
                string.length,
                view.pointer(row),
                view.pointer(used),
            )
        },
    );
    let view = trial.left();
    // SAFETY: the block that is left lives, and nothing else uses it.
    unsafe { (returned, *view.number(row), *view.number(used)) }
}

pub fn spent(trial: &mut Trial, random: &mut Random, stock: &Stock) {
    let (file, matrix) = some_file(random, stock);
    // strings for this matrix: some of them hit late, or never
    let mut strings = random::strings(random, &matrix);
    string_faults(random, &mut strings, matrix.columns);
    spent_on(trial, random, &file, &strings);
}

/// Adds up what the walks on 64 strings use. Returns the total too, as it is left.
pub fn spent_on(
    trial: &mut Trial,
    random: &mut Random,
    file: &[u8],
    strings: &[u8],
) -> (u32, usize) {
    let mut memory = Memory::new(random);
    let file = memory.lend("file", file);
    let strings = memory.lend("strings", strings);
    let total = memory.number("total");
    let returned = trial.compare(
        &memory,
        |view| unsafe { lent::spent(view.slice(file), view.slice(strings), view.number(total)) },
        |table, view| unsafe {
            (table.spent)(
                view.pointer(file),
                file.length,
                view.pointer(strings),
                strings.length,
                view.pointer(total),
            )
        },
    );
    // SAFETY: the block that is left lives, and nothing else uses it.
    (returned, unsafe { *trial.left().number(total) })
}

pub fn compile(trial: &mut Trial, random: &mut Random, stock: &Stock) {
    let (file, matrix) = some_file(random, stock);
    // A sum above 2^n has no program, but then the length does not count.
    let needed = if matrix.is_accepted() {
        translate(&matrix).length()
    } else {
        100
    };
    let program = length(random, needed, 5);
    compile_on(trial, random, &file, program);
}

/// Compiles a file into room for a program of so many bytes. Returns the program too.
pub fn compile_on(
    trial: &mut Trial,
    random: &mut Random,
    file: &[u8],
    program: usize,
) -> (u32, Vec<u8>) {
    let mut memory = Memory::new(random);
    let file = memory.lend("file", file);
    let program = memory.room("program", program);
    let written = memory.number("length");
    let returned = trial.compare(
        &memory,
        |view| unsafe {
            let (program, written) = (view.slice_mut(program), view.number(written));
            lent::compile(view.slice(file), program, written)
        },
        |table, view| unsafe {
            (table.compile)(
                view.pointer(file),
                file.length,
                view.pointer(program),
                program.length,
                view.pointer(written),
            )
        },
    );
    (returned, trial.laid(returned, program, written))
}
