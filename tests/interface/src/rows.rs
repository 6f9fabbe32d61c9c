//! 02, order 10, "Rows in the program header": every header and every number of rows that it speaks of, its refusals in their order, and
//! lanes that spell every number, below the rows and not.

use crate::foreign::OF_PROGRAM;
use crate::lanes::{draw_on, draw_signed_on, samples_on, signed_samples_on, slice_on};
use crate::matrices::compile_on;
use crate::programs::{check_on, checked_on, stopped_on};
use crate::trial::{fail, must, Trial};
use reference::compiler::translate;
use reference::lanes::{LANES, MISS, SIGNED_MISS};
use reference::lent::DONE;
use reference::matrix::Matrix;
use reference::random::{self, Random};

/// Ends the tests where a function answers otherwise than 02 says.
pub fn compare() {
    let random = &mut Random::new(0);
    headers_are_tried(random);
    fields_are_tried(random);
    faults_are_tried_in_order(random);
    old_headers_are_refused(random);
    rows_are_tried(random);
    wide_rows_are_refused(random);
    numbers_are_read(random);
    numbers_are_drawn(random);
    compiled_programs_draw_as_before(random);
}

/// The outputs of so many rows, or none where no program has so many: by the cases of order 6 the value bits, and 1 more.
pub fn outputs_of(rows: usize) -> Option<usize> {
    match rows {
        1 => Some(1),
        2 => Some(2),
        3..=4 => Some(3),
        5..=8 => Some(4),
        9..=16 => Some(5),
        17..=32 => Some(6),
        33..=64 => Some(7),
        65..=128 => Some(8),
        _ => None,
    }
}

/// Every number of rows, with its outputs.
fn all_rows() -> impl Iterator<Item = (usize, usize)> {
    (1..=128).filter_map(|rows| Some((rows, outputs_of(rows)?)))
}

/// The bytes of these fields.
fn bytes(fields: &[usize]) -> Vec<u8> {
    let low = fields.iter().map(|&field| (field as u16).to_le_bytes());
    low.flatten().collect()
}

/// A program by hand, with such a header, that hands its inputs on: INPUT 0 i and OUTPUT i 0 for each output i.
pub fn handing_on(rows: usize, outputs: usize) -> Vec<u8> {
    let mut file = bytes(&[16, 16, 1, outputs.max(1), outputs, rows, 2 * outputs, 0]);
    for i in 0..outputs {
        file.extend(bytes(&[8, 3, 0, i, 8, 7, i, 0]));
    }
    file
}

/// What each function that takes a program, with nothing else lent, returns for a sound one.
const SOUND: [u32; OF_PROGRAM.len()] = [DONE, 13, 12, 13, 13];

/// Gives a file to every function that takes a program.
fn all_return(
    trial: &mut Trial,
    random: &mut Random,
    what: &str,
    file: &[u8],
    numbers: [u32; OF_PROGRAM.len()],
) {
    for ((name, call), number) in OF_PROGRAM.into_iter().zip(numbers) {
        let returned = call(trial, random, file);
        must(&format!("{name} of {what}"), number, returned);
    }
}

/// 0 to 129 rows, and some of which one byte is within, each with 0 to 9 outputs: 3 but where the outputs are those of the rows.
fn headers_are_tried(random: &mut Random) {
    let mut trial = Trial::new("a program file", 0);
    for rows in (0..=129).chain([255, 256, 257, 258, 384, 512, 32_768, 65_535]) {
        for outputs in 0..=9 {
            let file = handing_on(rows, outputs);
            let what = format!("{rows} rows and {outputs} outputs");
            if outputs_of(rows) != Some(outputs) {
                all_return(&mut trial, random, &what, &file, [3; OF_PROGRAM.len()]);
                continue;
            }
            all_return(&mut trial, random, &what, &file, SOUND);
            let (_, told) = checked_on(&mut trial, random, &file);
            if told != [1, outputs, outputs, rows, 2 * outputs] {
                fail(&format!("check of {what} tells {told:?}"));
            }
        }
    }
}

/// The file with this field at this byte, where it reaches so far.
fn with(file: &[u8], at: usize, value: usize) -> Vec<u8> {
    let mut file = file.to_vec();
    if let Some(field) = file.get_mut(at..at + 2) {
        field.copy_from_slice(&bytes(&[value]));
    }
    file
}

/// Every length of the header, with no rows, and every number of rows, with 8 outputs.
fn fields_are_tried(random: &mut Random) {
    let mut trial = Trial::new("check", 0);
    let (none, many) = (handing_on(0, 1), handing_on(128, 8));
    for value in 0..=65_535 {
        let returned = check_on(&mut trial, random, &with(&none, 0, value));
        let number = if value == 16 { 3 } else { 4 };
        must(&format!("check of a length of {value}"), number, returned);
        let returned = check_on(&mut trial, random, &with(&many, 10, value));
        let number = if (65..=128).contains(&value) { DONE } else { 3 };
        must(&format!("check of {value} rows"), number, returned);
    }
}

/// A fault of a program file.
#[derive(Debug)]
enum Fault {
    /// Only the first bytes.
    Cut(usize),
    /// The field at a byte.
    Field(usize, usize),
    /// The count, of 32 bits.
    Count(u32),
    /// Bytes after the last instruction.
    More,
}

impl Fault {
    fn apply(&self, file: &[u8]) -> Vec<u8> {
        match *self {
            Fault::Cut(length) => file[..length.min(file.len())].to_vec(),
            Fault::Field(at, value) => with(file, at, value),
            Fault::Count(count) => {
                let low = with(file, 12, count as usize & 65_535);
                with(&low, 14, count as usize >> 16)
            }
            Fault::More => [file, &[6, 0, 1, 0, 0, 0]].concat(),
        }
    }
}

use Fault::{Count, Cut, Field, More};

/// The faults of the program that hands three inputs on for three rows, in the order in which they are tried: those of one step stand
/// together, with the number of each.
const STEPS: [&[(Fault, u32)]; 8] = [
    // under 4 bytes
    &[(Cut(0), 1), (Cut(3), 1)],
    // the kind: a matrix's, none, and one of which a byte is right
    &[(Field(2, 32), 2), (Field(2, 0), 2), (Field(2, 272), 2)],
    // under 16 bytes
    &[(Cut(4), 1), (Cut(10), 1), (Cut(14), 1), (Cut(15), 1)],
    // the header's length
    &[
        (Field(0, 0), 4),
        (Field(0, 8), 4),
        (Field(0, 14), 4),
        (Field(0, 15), 4),
        (Field(0, 17), 4),
        (Field(0, 272), 4),
        (Field(0, 4_096), 4),
        (Field(0, 65_535), 4),
    ],
    // registers, inputs, outputs, rows and the count
    &[
        (Field(4, 0), 3),
        (Field(4, 1_025), 3),
        (Field(6, 0), 3),
        (Field(6, 193), 3),
        (Field(8, 0), 3),
        (Field(8, 2), 3),
        (Field(8, 4), 3),
        (Field(8, 9), 3),
        (Field(10, 0), 3),
        (Field(10, 2), 3),
        (Field(10, 5), 3),
        (Field(10, 129), 3),
        (Field(10, 259), 3),
        (Field(10, 65_535), 3),
        (Count(262_145), 3),
        (Count(u32::MAX), 3),
    ],
    // the first instruction: cut, of no kind, with a register too many, or NOT 0 0, which reads what is not written
    &[
        (Cut(18), 1),
        (Field(16, 65_535), 1),
        (Field(18, 0), 7),
        (Field(20, 1), 8),
        (Field(18, 4), 9),
    ],
    // bytes left over
    &[(More, 4)],
    // the last output never set: 0 is set twice
    &[(Field(60, 0), 10)],
];

/// Each fault has its number; of two the one of the earlier step has. Whatever else is wrong with the header, its length is 4, and 15
/// bytes are 1.
fn faults_are_tried_in_order(random: &mut Random) {
    let mut trial = Trial::new("a program file", 0);
    let sound = handing_on(3, 3);
    let mut refused = |what: &str, file: &[u8], number: u32| {
        let numbers = [number; OF_PROGRAM.len()];
        all_return(&mut trial, random, what, file, numbers);
    };
    for (step, faults) in STEPS.iter().enumerate() {
        for (fault, number) in *faults {
            refused(&format!("{fault:?}"), &fault.apply(&sound), *number);
            for (later, _) in STEPS[step + 1..].iter().copied().flatten() {
                let both = fault.apply(&later.apply(&sound));
                refused(&format!("{fault:?}, {later:?}"), &both, *number);
            }
        }
    }
    for length in [0, 14, 15, 17, 65_535] {
        let mut worst = bytes(&[length, 16, 0, 193, 9, 129, 65_535, 65_535]);
        worst.extend([255; 4]);
        refused("a header of faults", &worst, 4);
        refused("a header of faults, cut", &worst[..15], 1);
        refused("a header of faults, of length 16", &with(&worst, 0, 16), 3);
    }
    all_return(&mut trial, random, "no fault", &sound, SOUND);
}

/// A program as it was before, with a header of 14 bytes and no rows: 4 from 16 bytes on, and before that 1.
fn old_headers_are_refused(random: &mut Random) {
    let mut trial = Trial::new("a program file", 0);
    for (rows, outputs) in all_rows() {
        let file = handing_on(rows, outputs);
        let old = [&[14, 0], &file[2..10], &file[12..]].concat();
        for length in (0..24).chain([old.len()]) {
            let number = if length < 16 { 1 } else { 4 };
            let what = format!("{length} bytes with an old header");
            let numbers = [number; OF_PROGRAM.len()];
            all_return(&mut trial, random, &what, &old[..length], numbers);
        }
    }
}

/// Reads samples, plain and signed, of words of any content, and ends the tests where a function returns another number.
fn read_returns(trial: &mut Trial, random: &mut Random, sizes: (usize, usize, usize), number: u32) {
    let (rows, words, room) = sizes;
    let (outputs, sign) = (random.words(words), random.word());
    let what = format!("of {rows} rows, {words} words, {room} lent");
    let (returned, _) = samples_on(trial, random, rows, &outputs, room);
    must(&format!("samples {what}"), number, returned);
    let (returned, _) = signed_samples_on(trial, random, rows, &outputs, sign, room);
    must(&format!("signed_samples {what}"), number, returned);
}

/// 0 to 130 rows with 0 to 10 words: 3 but where the words are those of the rows, and then 13 for fewer than 64 samples.
fn rows_are_tried(random: &mut Random) {
    let mut trial = Trial::new("samples, signed_samples", 0);
    for rows in 0..=130 {
        for words in 0..=10 {
            for room in [0, 63, 64, 65] {
                let number = match outputs_of(rows) == Some(words) {
                    false => 3,
                    true if room < 64 => 13,
                    true => DONE,
                };
                read_returns(&mut trial, random, (rows, words, room), number);
            }
        }
    }
}

/// Numbers that 8, 16, 32 or 63 bits would take for rows, and the largest, with the words of these rows and with others: 3.
fn wide_rows_are_refused(random: &mut Random) {
    let mut trial = Trial::new("samples, signed_samples", 0);
    for (within, words) in all_rows() {
        for more in [1 << 8, 1 << 16, 1 << 32, 1 << 63] {
            for room in [63, 64] {
                read_returns(&mut trial, random, (more + within, words, room), 3);
            }
        }
        // also where a difference to 0 is taken for rows
        read_returns(&mut trial, random, (within.wrapping_neg(), words, 64), 3);
    }
    for words in 0..=10 {
        for rows in [255, 65_535, u32::MAX as usize, usize::MAX] {
            read_returns(&mut trial, random, (rows, words, 64), 3);
        }
    }
}

/// Output words of which each lane spells its number, with these hits.
fn spelling(outputs: usize, hits: u64, number: impl Fn(usize) -> usize) -> Vec<u64> {
    let mut words = vec![hits];
    for bit in 0..outputs - 1 {
        let set = |lane: usize| ((number(lane) >> bit & 1) as u64) << lane;
        words.push((0..LANES).map(set).sum());
    }
    words
}

/// What a lane with this number must give: the number where it hits and the number is below the rows.
fn given(rows: usize, hits: u64, lane: usize, number: usize) -> Option<usize> {
    (hits >> lane & 1 == 1 && number < rows).then_some(number)
}

/// What all lanes must give, plain.
fn plain(given: impl Fn(usize) -> Option<usize>) -> Vec<u8> {
    let sample = |lane| given(lane).map_or(MISS, |number| number as u8);
    (0..LANES).map(sample).collect()
}

/// What all lanes must give with these signs. A miss has none.
fn signed(sign: u64, given: impl Fn(usize) -> Option<usize>) -> Vec<i16> {
    let sample = |lane| match given(lane) {
        None => SIGNED_MISS,
        Some(number) if sign >> lane & 1 == 1 => -(number as i16),
        Some(number) => number as i16,
    };
    (0..LANES).map(sample).collect()
}

/// Ends the tests where a call was refused or left other samples.
fn leaves<T: PartialEq + std::fmt::Debug>(what: &str, wanted: Vec<T>, left: (u32, Vec<T>)) {
    if left != (DONE, wanted) {
        fail(&format!("{what} leaves {left:?}: not 02's"));
    }
}

/// Of every number of rows every number that its words can spell, in every lane: with all hits and with any, and with any signs.
fn numbers_are_read(random: &mut Random) {
    let mut trial = Trial::new("samples, signed_samples", 0);
    for (rows, outputs) in all_rows() {
        let numbers = 1 << (outputs - 1);
        for first in 0..numbers {
            let number = |lane: usize| (first + lane) % numbers;
            for (hits, sign) in [
                (u64::MAX, u64::MAX),
                (u64::MAX, 0),
                (random.word(), random.word()),
            ] {
                let words = spelling(outputs, hits, number);
                let given = |lane| given(rows, hits, lane, number(lane));
                let what = format!("of {rows} rows, from {first} on");
                let left = samples_on(&mut trial, random, rows, &words, LANES);
                leaves(&format!("samples {what}"), plain(given), left);
                let left = signed_samples_on(&mut trial, random, rows, &words, sign, LANES);
                leaves(&format!("signed_samples {what}"), signed(sign, given), left);
            }
        }
    }
}

/// A program that hands on what its strings spell draws the numbers below its rows, and for others misses. So does slicing, starting it and
/// reading with the rows of its header.
fn numbers_are_drawn(random: &mut Random) {
    let mut trial = Trial::new("draw, draw_signed, ..", 0);
    for (rows, outputs) in all_rows() {
        let (file, numbers) = (handing_on(rows, outputs), 1 << (outputs - 1));
        for first in (0..numbers).step_by(LANES) {
            for hits in [u64::MAX, random.word()] {
                let number = |lane: usize| (first + lane) % numbers;
                let words = spelling(outputs, hits, number);
                let bit = |lane: usize, i: usize| ((words[i] >> lane & 1) as u8) << (7 - i);
                let string = |lane| (0..outputs).map(|i| bit(lane, i)).sum();
                let strings: Vec<u8> = (0..LANES).map(string).collect();
                let given = |lane| given(rows, hits, lane, number(lane));
                let sign = random.word();
                let what = format!("of {rows} rows, from {first} on");
                let left = draw_on(&mut trial, random, &file, &strings, LANES);
                leaves(&format!("draw {what}"), plain(given), left);
                let left = draw_signed_on(&mut trial, random, &file, &strings, sign, LANES);
                leaves(&format!("draw_signed {what}"), signed(sign, given), left);
                let left = read_in_parts(&mut trial, random, &file, &strings);
                leaves(&format!("draw in parts {what}"), plain(given), left);
            }
        }
    }
}

/// The samples of a sound program by slicing, a start, and reading with the rows that a check tells.
fn read_in_parts(
    trial: &mut Trial,
    random: &mut Random,
    file: &[u8],
    strings: &[u8],
) -> (u32, Vec<u8>) {
    let (_, [_, inputs, _, rows, _]) = checked_on(trial, random, file);
    let (number, words) = slice_on(trial, random, inputs, strings, inputs);
    must("slice", DONE, number);
    let left = stopped_on(trial, random, file, &words, &[u32::MAX]);
    samples_on(trial, random, rows, &left[0].words.outputs, LANES)
}

/// What a lane gave before, when no rows were told: whatever it spells, where it hits.
fn before(outputs: &[u64], lane: usize) -> Option<usize> {
    let bit = |output: usize| (outputs[output] >> lane & 1) as usize;
    let number = (1..outputs.len()).map(|i| bit(i) << (i - 1)).sum();
    (bit(0) == 1).then_some(number)
}

/// Of every number of rows a compiled matrix: what is drawn, and read off a start with its rows, is what was read without.
fn compiled_programs_draw_as_before(random: &mut Random) {
    let mut trial = Trial::new("compile, draw ..", 0);
    for (rows, _) in all_rows() {
        for columns in [1, 6, 9, 64, 129] {
            let any = random::matrix(random, rows, columns);
            let matrices = [any, random::matrix_by_columns(random, rows, columns, true)];
            for matrix in matrices {
                draws_as_before(&mut trial, random, &matrix);
            }
        }
    }
}

fn draws_as_before(trial: &mut Trial, random: &mut Random, matrix: &Matrix) {
    let room = translate(matrix).length();
    let (number, file) = compile_on(trial, random, &matrix.encode(), room);
    must("compile of a matrix to be drawn", DONE, number);
    let (strings, sign) = (random::strings(random, matrix), random.word());
    let (_, words) = slice_on(trial, random, matrix.columns, &strings, matrix.columns);
    let left = stopped_on(trial, random, &file, &words, &[u32::MAX]);
    let outputs = &left[0].words.outputs;
    let given = |lane| before(outputs, lane);
    let what = format!("of a program of {} rows", matrix.rows);
    let left = draw_on(trial, random, &file, &strings, LANES);
    leaves(&format!("draw {what}"), plain(given), left);
    let left = draw_signed_on(trial, random, &file, &strings, sign, LANES);
    leaves(&format!("draw_signed {what}"), signed(sign, given), left);
    let left = samples_on(trial, random, matrix.rows, outputs, LANES);
    leaves(&format!("samples {what}"), plain(given), left);
    let left = signed_samples_on(trial, random, matrix.rows, outputs, sign, LANES);
    leaves(&format!("signed_samples {what}"), signed(sign, given), left);
}
