//! The operations on cumulative tables: import, export, lookup. And the cases of 02, order 4, with the numbers that stand there.

use crate::inputs::{length, outside, Stock, SIXTEEN_BITS};
use crate::matrices::some_file;
use crate::memory::Memory;
use crate::trial::{fail, must, Trial};
use reference::cumulative::{LEAST_NUMBERS, MOST_NUMBERS, MOST_TABLE_COLUMNS};
use reference::lent;
use reference::matrix::{file_length, Matrix};
use reference::random::{self, Random};
use reference::tables::document_004_cut;

/// A table, its columns, and a number to look up in it.
struct Given {
    table: Vec<u64>,
    columns: usize,
    r: u64,
}

/// A table of mostly few numbers: sound, or with one fault, two or three.
fn some_table(random: &mut Random) -> Given {
    let (any, columns) = random::table_sizes(random);
    let few = random.between(LEAST_NUMBERS, 9);
    let numbers = if random.once_in(8) { any } else { few };
    let table = random::table(random, numbers, columns);
    let r = random::within(random, &table, columns);
    let mut given = Given { table, columns, r };
    for _ in 0..random.pick(&[0, 0, 0, 0, 1, 1, 1, 2, 2, 3]) {
        table_fault(random, &mut given);
    }
    given
}

/// One fault: of the numbers, of how many they are, of the columns or of r. Numbers that are left out or added make no other fault.
fn table_fault(random: &mut Random, given: &mut Given) {
    let (table, columns) = (&mut given.table, &mut given.columns);
    match random.below(8) {
        0 => *columns = outside(random, MOST_TABLE_COLUMNS),
        1 => *columns = random.between(1, MOST_TABLE_COLUMNS),
        2 => given.r = random::without(random, (*columns).min(MOST_TABLE_COLUMNS)),
        3 => {
            let within = random.between(LEAST_NUMBERS, MOST_NUMBERS);
            let more = random.pick(&[256 + within, SIXTEEN_BITS + within]);
            let numbers = [
                0,
                1,
                1,
                MOST_NUMBERS + 1,
                MOST_NUMBERS + 1,
                MOST_NUMBERS + 2,
            ];
            let most = table.last().copied().unwrap_or(0);
            let many = random.once_in(30);
            table.resize(if many { more } else { random.pick(&numbers) }, most);
        }
        _ if !table.is_empty() => random::table_fault(random, table, *columns),
        _ => {}
    }
}

pub fn import(trial: &mut Trial, random: &mut Random, _: &Stock) {
    let Given { table, columns, .. } = some_table(random);
    let rows = table.len().clamp(LEAST_NUMBERS, MOST_NUMBERS) - 1;
    let needed = file_length(rows, columns.clamp(1, MOST_TABLE_COLUMNS));
    let file = length(random, needed, 5);
    import_on(trial, random, &table, columns, file);
}

/// Imports a table into room for a file of so many bytes.
fn import_on(
    trial: &mut Trial,
    random: &mut Random,
    table: &[u64],
    columns: usize,
    file: usize,
) -> u32 {
    let mut memory = Memory::new(random);
    memory.note("columns", columns as u64);
    let numbers = memory.lend("table", table);
    let file = memory.room("file", file);
    let written = memory.number("length");
    trial.compare(
        &memory,
        // SAFETY, here and below: what is lent lies apart in the block, which lives as long as the call.
        |view| unsafe {
            let (file, written) = (view.slice_mut(file), view.number(written));
            lent::import(view.slice(numbers), columns, file, written)
        },
        |table, view| unsafe {
            (table.import)(
                view.pointer(numbers),
                numbers.length,
                columns,
                view.pointer(file),
                file.length,
                view.pointer(written),
            )
        },
    )
}

/// Files of any columns, also above 63.
pub fn export(trial: &mut Trial, random: &mut Random, stock: &Stock) {
    let (file, matrix) = some_file(random, stock);
    let numbers = length(random, matrix.rows + 1, 5);
    export_on(trial, random, &file, numbers);
}

/// Exports a file into room for so many numbers.
pub fn export_on(trial: &mut Trial, random: &mut Random, file: &[u8], numbers: usize) -> u32 {
    let mut memory = Memory::new(random);
    let file = memory.lend("file", file);
    let room = memory.room("table", numbers);
    let numbers = memory.number("numbers");
    let columns = memory.number("columns");
    trial.compare(
        &memory,
        |view| unsafe {
            lent::export(
                view.slice(file),
                view.slice_mut(room),
                view.number(numbers),
                view.number(columns),
            )
        },
        |table, view| unsafe {
            (table.export)(
                view.pointer(file),
                file.length,
                view.pointer(room),
                room.length,
                view.pointer(numbers),
                view.pointer(columns),
            )
        },
    )
}

pub fn lookup(trial: &mut Trial, random: &mut Random, _: &Stock) {
    let Given { table, columns, r } = some_table(random);
    lookup_on(trial, random, &table, columns, r);
}

/// Looks r up. Returns the sample too, as it is left.
fn lookup_on(
    trial: &mut Trial,
    random: &mut Random,
    table: &[u64],
    columns: usize,
    r: u64,
) -> (u32, usize) {
    let mut memory = Memory::new(random);
    memory.note("columns", columns as u64);
    memory.note("r", r);
    let numbers = memory.lend("table", table);
    let sample = memory.number("sample");
    let returned = trial.compare(
        &memory,
        |view| unsafe { lent::lookup(view.slice(numbers), columns, r, view.number(sample)) },
        |table, view| unsafe {
            (table.lookup)(
                view.pointer(numbers),
                numbers.length,
                columns,
                r,
                view.pointer(sample),
            )
        },
    );
    // SAFETY: the block that is left lives, and nothing else uses it.
    (returned, unsafe { *trial.left().number(sample) })
}

/// 2^63, the largest number of a table.
const TOP: u64 = 1 << 63;

/// Tables with their columns, and the number that 02 refuses them with.
const REFUSED: [(&[u64], usize, u32); 22] = [
    (&[], 2, 3),
    (&[0], 2, 3),
    (&[0; 130], 2, 3),
    (&[0, 1], 0, 3),
    (&[0, 1], 64, 3),
    (&[0, 1], (1 << 32) + 1, 3),
    (&[5], 64, 3),
    (&[0, 4, 3], 64, 3),
    (&[1, 2], 2, 15),
    (&[0, 3, 2, 4], 2, 15),
    (&[0, 1, 2, 1], 2, 15),
    (&[0, 5], 2, 15),
    (&[0, TOP + 1], 63, 15),
    (&[0, u64::MAX], 63, 15),
    (&[0, u64::MAX, 0], 63, 15),
    (&[0, 1, 0, 4], 2, 15),
    (&[0, 4, 3], 2, 15),
    (&[0, 4], 2, 16),
    (&[0, 0, 4], 2, 16),
    (&[0, 4, 4], 2, 16),
    (&[0, 0, 4, 4], 2, 16),
    (&[0, TOP], 63, 16),
];

/// Ends the tests where a function answers otherwise than 02 says.
pub fn compare() {
    let random = &mut Random::new(0);
    tables_are_refused(random);
    files_are_refused(random);
    samples_are_found(random);
}

/// Import refuses each table with room for a file and without, and lookup with any r within; with an r outside it is 3.
fn tables_are_refused(random: &mut Random) {
    let (mut imports, mut lookups) = (Trial::new("import", 0), Trial::new("lookup", 0));
    for (table, columns, number) in REFUSED {
        let what = format!("import or lookup of {table:?} with n = {columns}");
        for file in [0, 2_048] {
            let returned = import_on(&mut imports, random, table, columns, file);
            must(&what, number, returned);
        }
        for (r, number) in [(1, number), (2, number), (0, 3), (u64::MAX, 3)] {
            let (returned, _) = lookup_on(&mut lookups, random, table, columns, r);
            must(&what, number, returned);
        }
    }
    for (file, number) in [(10, 13), (11, 0), (12, 0)] {
        let returned = import_on(&mut imports, random, &[0, 2, 3, 4], 2, file);
        must("import of three rows", number, returned);
    }
    for (r, number) in [(4, 0), (5, 3)] {
        let (returned, _) = lookup_on(&mut lookups, random, &[0, 2, 3, 4], 2, r);
        must("lookup in three rows", number, returned);
    }
}

/// Of export: the matrix's own refusals before 3 for more than 63 columns, and that before 13.
fn files_are_refused(random: &mut Random) {
    let mut trial = Trial::new("export", 0);
    let half = |columns: usize| format!("1{}", "0".repeat(columns - 1));
    let of = |rows: usize, columns: usize| {
        let half = half(columns);
        Matrix::from_texts(&vec![half.as_str(); rows]).encode()
    };
    for (columns, room, number) in [
        (63, 2, 13),
        (63, 3, 0),
        (63, 4, 0),
        (64, 0, 3),
        (64, 3, 3),
        (129, 0, 3),
        (192, 0, 3),
        (192, 3, 3),
    ] {
        let returned = export_on(&mut trial, random, &of(2, columns), room);
        must(&format!("export with n = {columns}"), number, returned);
    }
    for columns in [2, 63, 64, 128, 129, 192] {
        let returned = export_on(&mut trial, random, &of(3, columns), 0);
        must("export of a sum above 2^n", 6, returned);
    }
    for columns in [65, 129, 191] {
        let mut spare = of(2, columns);
        *spare.last_mut().expect("a file has bytes") |= 1;
        let returned = export_on(&mut trial, random, &spare, 0);
        must("export of a spare bit", 5, returned);
    }
}

/// Every r of a table with a row of 0 and misses, and of the table of source document 004 the first and the last of every sample.
fn samples_are_found(random: &mut Random) {
    let mut trial = Trial::new("lookup", 0);
    let mut found = |table: &[u64], columns: usize, r: u64, sample: usize| {
        let left = lookup_on(&mut trial, random, table, columns, r);
        if left != (0, sample) {
            fail(&format!(
                "lookup of {r} in {table:?} leaves {left:?}, and 02 says {sample}"
            ));
        }
    };
    for (r, sample) in (1..).zip([0, 2, 2, 3, 3, 3, 255, 255]) {
        found(&[0, 1, 1, 3, 6], 3, r, sample);
    }
    let table = document_004_cut();
    for (sample, pair) in table.windows(2).enumerate() {
        found(&table, 63, pair[0] + 1, sample);
        found(&table, 63, pair[1], sample);
    }
}
