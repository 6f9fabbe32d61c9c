//! The operation that finds a string for a row: string_for. And 02, order 7: its cases, with strings that are worked out by hand, and every
//! row of some tables drawn from its string.

use crate::inputs::{length, Stock, COLUMNS, SIXTEEN_BITS};
use crate::lanes::draw_on;
use crate::matrices::{compile_on, some_file, walk_on};
use crate::memory::Memory;
use crate::trial::{fail, must, Trial};
use reference::compiler::translate;
use reference::lanes::LANES;
use reference::lent::{self, DONE};
use reference::matrix::Matrix;
use reference::random::{self, Random};
use reference::record::packed_length;
use reference::tables::{document_001, document_002, document_002_fine, document_004};
use std::ops::Range;

/// The number of a row: mostly one of these rows, or the next, or another that is none, also one of which 8, 16, 32 or 63 bits are.
fn some_row(random: &mut Random, rows: usize) -> usize {
    let within = random.below(rows);
    if !random.once_in(6) {
        return random.pick(&[within, within, within, 0, rows - 1]);
    }
    random.pick(&[
        rows,
        rows,
        rows + 1,
        rows.max(127),
        128,
        256 + within,
        SIXTEEN_BITS + within,
        (1 << 32) + within,
        (1 << 63) + within,
        usize::MAX - within,
    ])
}

pub fn string_for(trial: &mut Trial, random: &mut Random, stock: &Stock) {
    let (file, matrix) = some_file(random, stock);
    let row = some_row(random, matrix.rows);
    let room = length(random, packed_length(matrix.columns), 5);
    let string = random.bytes(room);
    string_for_on(trial, random, &file, row, &string);
}

/// What a call leaves: the number that it returns, whether there is a string, and the bytes that it was lent for one.
type Left = (u32, bool, Vec<u8>);

/// Finds a string in a buffer that holds these bytes before.
pub fn string_for_on(
    trial: &mut Trial,
    random: &mut Random,
    file: &[u8],
    row: usize,
    string: &[u8],
) -> Left {
    let mut memory = Memory::new(random);
    memory.note("row", row as u64);
    let file = memory.lend("file", file);
    let string = memory.lend("string", string);
    let found = memory.yes_or_no("found");
    let returned = trial.compare(
        &memory,
        // SAFETY: what is lent lies apart in the block, which lives as long as the call.
        |view| unsafe {
            let (string, found) = (view.slice_mut(string), view.number(found));
            lent::string_for(view.slice(file), row, string, found)
        },
        |table, view| unsafe {
            (table.string_for)(
                view.pointer(file),
                file.length,
                row,
                view.pointer(string),
                string.length,
                view.pointer(found),
            )
        },
    );
    let view = trial.left();
    // SAFETY: the block that is left lives, and nothing else uses it.
    unsafe { (returned, *view.number(found), view.slice(string).to_vec()) }
}

/// Rows of at most eight columns, and the string of each, or none.
type Worked = (&'static [&'static str], &'static [Option<u8>]);

const WORKED: [Worked; 9] = [
    // One column: the last row is met first.
    (&["1"], &[Some(0x00)]),
    (&["0"], &[None]),
    (&["1", "0", "1"], &[Some(0x80), None, Some(0x00)]),
    // As 01 says: 00 and 01 give 0, 10 gives 2, 11 gives 1.
    (&["10", "01", "01"], &[Some(0x00), Some(0xc0), Some(0x80)]),
    // Nothing is set in column 0. 00 hits row 3 and 01 row 2; then 100 hits row 3 again, and 101 row 0.
    (
        &["001", "000", "010", "011"],
        &[Some(0xa0), None, Some(0x40), Some(0x00)],
    ),
    // 00 hits row 1 and 01 row 0; 100 hits row 2 and 101 row 0 again; 1100 and 1101 hit rows 2 and 1 again.
    (
        &["0110", "0101", "0011"],
        &[Some(0x40), Some(0x00), Some(0x80)],
    ),
    // The rows add up to 2^n, and 1..1 or 1..10 alone hits the one that is 1.
    (&["00000001", "11111111"], &[Some(0xff), Some(0x00)]),
    (&["11111111", "00000001"], &[Some(0x00), Some(0xfe)]),
    (
        &["0000001", "0000000", "1111111"],
        &[Some(0xfe), None, Some(0x00)],
    ),
];

/// Ends the tests where a function answers otherwise than 02 says.
pub fn compare() {
    let random = &mut Random::new(0);
    strings_are_found(random);
    late_rows_are_found(random);
    numbers_are_refused(random);
    rows_are_drawn(random);
}

/// What was in the buffer before.
const BEFORE: u8 = 0xa5;

/// Asks for a row with just enough room, with more, and with a byte less, and ends the tests where the string is another, where anything
/// else has changed, or where the last is not 13.
fn found(
    trial: &mut Trial,
    random: &mut Random,
    matrix: &Matrix,
    row: usize,
    wanted: Option<&[u8]>,
) {
    let (file, width) = (matrix.encode(), packed_length(matrix.columns));
    for room in [width, width + 1, width + 20] {
        let mut string = vec![BEFORE; room];
        let left = string_for_on(trial, random, &file, row, &string);
        if let Some(wanted) = wanted {
            string[..width].copy_from_slice(wanted);
        }
        if left != (DONE, wanted.is_some(), string) {
            let what = format!("string_for row {row} of {} in {room} bytes", named(matrix));
            fail(&format!(
                "{what} leaves {left:02x?}, and 02 says {wanted:02x?}"
            ));
        }
    }
    let short = vec![BEFORE; width - 1];
    let (returned, ..) = string_for_on(trial, random, &file, row, &short);
    must("string_for with a byte less", 13, returned);
}

fn named(matrix: &Matrix) -> String {
    format!("{} rows and {} columns", matrix.rows, matrix.columns)
}

/// Every row of the cases; and at many columns a row that the string of all ones alone hits, one that all zeros hit, and one that is zero.
fn strings_are_found(random: &mut Random) {
    let mut trial = Trial::new("string_for", 0);
    for (rows, strings) in WORKED {
        let matrix = Matrix::from_texts(rows);
        for (row, string) in strings.iter().enumerate() {
            let string = string.as_ref().map(std::slice::from_ref);
            found(&mut trial, random, &matrix, row, string);
        }
    }
    for columns in COLUMNS.into_iter().chain([31, 32, 33, 136, 160]) {
        let one = format!("{}1", "0".repeat(columns - 1));
        let (ones, zeros) = ("1".repeat(columns), "0".repeat(columns));
        let matrix = Matrix::from_texts(&[&one, &ones, &zeros]);
        let mut string = vec![0xff; packed_length(columns)];
        *string.last_mut().expect("a string has bytes") <<= 8 * string.len() - columns;
        found(&mut trial, random, &matrix, 0, Some(&string));
        string.fill(0);
        found(&mut trial, random, &matrix, 1, Some(&string));
        found(&mut trial, random, &matrix, 2, None);
    }
}

/// 128 rows that are set in the last column alone: the string that spells s hits row 127 - s.
fn late_rows_are_found(random: &mut Random) {
    let mut trial = Trial::new("string_for", 0);
    for columns in [7, 8, 9, 64, 65, 128, 129, 192] {
        let one = format!("{}1", "0".repeat(columns - 1));
        let matrix = Matrix::from_texts(&[one.as_str(); 128]);
        let spare = 8 * packed_length(columns) - columns;
        for row in 0..128 {
            let number = (127 - row as u128) << spare;
            let bytes = [&[0; 8][..], &number.to_be_bytes()].concat();
            let string = &bytes[24 - packed_length(columns)..];
            found(&mut trial, random, &matrix, row, Some(string));
        }
    }
}

/// Numbers that three rows do not have: the next, around the limits, ones of which 8, 16, 32 or 63 bits are within, and the largest.
const NO_ROWS: [usize; 11] = [
    3,
    4,
    127,
    128,
    255,
    256,
    SIXTEEN_BITS,
    1 << 32,
    (1 << 32) + 1,
    1 << 63,
    usize::MAX,
];

/// Numbers that are no row's: 3, with room and without; where the rows add up to more than 2^n it is 6.
fn numbers_are_refused(random: &mut Random) {
    let mut trial = Trial::new("string_for", 0);
    let mut refused = |rows: &[&str], row: usize, number: u32| {
        let (file, what) = (
            Matrix::from_texts(rows).encode(),
            format!("row {row} of {rows:?}"),
        );
        for room in [&[][..], &[BEFORE], &[BEFORE; 2]] {
            let (returned, ..) = string_for_on(&mut trial, random, &file, row, room);
            must(&format!("string_for {what}"), number, returned);
        }
    };
    for row in NO_ROWS {
        refused(&["10", "01", "01"], row, 3);
        refused(&["00", "00", "00"], row, 3);
        refused(&["10", "10", "01"], row, 6);
    }
    for row in [128, 129, 256, 1 << 32, (1 << 32) + 127] {
        refused(&["0000001"; 128], row, 3);
    }
    refused(&["10", "10", "01"], 0, 6);
}

/// Every row of some tables: of those of few rows in each of the 64 lanes, and of the curve of source document 002, with 128 columns and
/// with 192, in a lane each. Some of them add up to 2^n, some have rows that are zero, and of some n is no multiple of 8.
fn rows_are_drawn(random: &mut Random) {
    let mut trial = Trial::new("string_for, draw", 0);
    let mut tables = vec![document_001(), document_004()];
    for (rows, columns) in [(5, 3), (9, 11), (8, 17), (12, 63), (4, 129), (5, 191)] {
        tables.push(random::matrix_of_parts(random, rows, columns, true));
        tables.push(random::matrix_by_columns(random, rows, columns, true));
    }
    for table in tables {
        table_is_drawn(&mut trial, random, &table, |_| 0..LANES);
    }
    for table in [document_002(), document_002_fine()] {
        table_is_drawn(&mut trial, random, &table, |row| {
            row % LANES..row % LANES + 1
        });
    }
}

/// Compiles a table, and draws each row that has a string in these lanes.
fn table_is_drawn(
    trial: &mut Trial,
    random: &mut Random,
    table: &Matrix,
    lanes: fn(usize) -> Range<usize>,
) {
    let room = translate(table).length();
    let (number, program) = compile_on(trial, random, &table.encode(), room);
    must("compile of a table to be drawn", DONE, number);
    for row in 0..table.rows {
        if let Some(string) = string_of(trial, random, table, row) {
            for lane in lanes(row) {
                lane_gives(trial, random, &program, lane, (&string, table.columns), row);
            }
        }
    }
}

/// The string for a row, on which the walk must hit it. Ends the tests where the row is zero and has one, or is not and has none.
fn string_of(
    trial: &mut Trial,
    random: &mut Random,
    table: &Matrix,
    row: usize,
) -> Option<Vec<u8>> {
    let file = table.encode();
    let before = vec![BEFORE; packed_length(table.columns)];
    let (number, found, string) = string_for_on(trial, random, &file, row, &before);
    if number != DONE || found == table.value(row).is_zero() {
        fail(&format!(
            "string_for row {row} of {} returns {number}, found is {found}",
            named(table)
        ));
    }
    if found {
        let walked = walk_on(trial, random, &file, &string);
        gives(&format!("the walk of {}", named(table)), row, walked);
    }
    found.then_some(string)
}

/// Draws a string of so many bits in a lane, with any strings in the others, and ends the tests where the lane gives another row.
fn lane_gives(
    trial: &mut Trial,
    random: &mut Random,
    program: &[u8],
    lane: usize,
    (string, columns): (&[u8], usize),
    row: usize,
) {
    let mut strings = random::packed_strings(random, columns, LANES);
    strings[lane * string.len()..][..string.len()].copy_from_slice(string);
    let (number, samples) = draw_on(trial, random, program, &strings, LANES);
    gives(
        &format!("lane {lane}"),
        row,
        (number, usize::from(samples[lane])),
    );
}

/// Ends the tests where this is refused, or gives another row than the wanted one.
fn gives(what: &str, wanted: usize, given: (u32, usize)) {
    if given != (DONE, wanted) {
        fail(&format!(
            "{what} returns and gives {given:?}, and not row {wanted}"
        ));
    }
}
