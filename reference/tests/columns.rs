//! 02, order 8: columns and inputs up to 192, instructions up to 262,144, and what comes next to each
//! limit; by hand.

mod refused;

use reference::compiler::compile;
use reference::cumulative::{export, import, lookup};
use reference::draws::{draw, draw_signed};
use reference::extremes::{longest_program, row_of_longest};
use reference::lanes::slice;
use reference::machine::{resume, start, Run};
use reference::matrix::{check, read, write, Matrix};
use reference::program;
use reference::random::Random;
use reference::record::put;
use reference::walk::{spent, walk, Walked};
use reference::wanted::string_for;
use reference::weights::build;
use refused::matrix_is_refused;

/// Columns that are refused: the next to the most, ones of which 8, 16, 32 or 63 bits are within.
const WIDER: [usize; 8] = [
    193,
    194,
    256 + 192,
    65_535,
    65_536 + 192,
    (1 << 32) + 129,
    (1 << 63) + 192,
    usize::MAX,
];

/// A file of rows that are all zero, of any sizes.
fn zeros(rows: usize, columns: usize) -> Vec<u8> {
    Matrix {
        rows,
        columns,
        entries: vec![0; rows * columns],
    }
    .encode()
}

/// A row of so many columns that is set in this one alone.
fn set_in(column: usize, columns: usize) -> String {
    let (before, after) = ("0".repeat(column), "0".repeat(columns - 1 - column));
    format!("{before}1{after}")
}

/// The first `columns` digits of a text that is repeated.
fn repeated(text: &str, columns: usize) -> String {
    text.repeat(columns).chars().take(columns).collect()
}

/// Every number of columns that is within, at every operation that takes columns or a matrix file.
#[test]
fn columns_from_1_to_192_are_answered() {
    for columns in 1..=192 {
        let (file, width) = (zeros(1, columns), columns.div_ceil(8));
        let (strings, entries) = (vec![0; 64 * width], vec![0; columns]);
        assert_eq!(check(&file), Ok((1, columns)));
        assert_eq!(read(&file, columns).unwrap().entries, entries);
        assert_eq!(write(1, columns, &entries, 8 + width), Ok(file.clone()));
        let ones = file_of(&["1".repeat(columns)]);
        assert_eq!(build(&[7], columns, false, 8 + width), Ok(ones));
        let missed = Walked {
            row: None,
            used: columns,
        };
        assert_eq!(walk(&file, &strings[..width]), Ok(missed));
        assert_eq!(spent(&file, &strings), Ok(64 * columns));
        assert_eq!(string_for(&file, 0, width), Ok(None));
        assert_eq!(slice(columns, &strings, columns), Ok(vec![0; columns]));
        let program = compile(&file, usize::MAX).unwrap();
        assert_eq!(program::check(&program).unwrap().inputs, columns);
        assert_eq!(draw(&program, &strings, 64), Ok(vec![255; 64]));
        // One byte or word less is too short.
        assert_eq!(read(&file, columns - 1), Err(13));
        assert_eq!(walk(&file, &strings[1..width]), Err(13));
        assert_eq!(spent(&file, &strings[1..]), Err(13));
        assert_eq!(slice(columns, &strings, columns - 1), Err(13));
        assert_eq!(draw(&program, &strings[1..], 64), Err(13));
    }
}

fn file_of(rows: &[String]) -> Vec<u8> {
    let rows: Vec<&str> = rows.iter().map(String::as_str).collect();
    Matrix::from_texts(&rows).encode()
}

/// 193 columns are refused with 3 by all of these, with all else in order and with nothing; and so
/// are numbers of columns of which some bits are within.
#[test]
fn more_than_192_columns_are_refused() {
    for columns in WIDER {
        assert_eq!(slice(columns, &[], 0), Err(3));
        assert_eq!(slice(columns, &[0; 64 * 25], 193), Err(3));
        for rows in [0, 1, 128, 129] {
            assert_eq!(write(rows, columns, &[2], 0), Err(3));
            assert_eq!(write(rows, columns, &[0; 193], 33), Err(3));
        }
        for signed in [false, true] {
            for weights in [&[][..], &[0], &[1, 2], &[1; 129]] {
                assert_eq!(build(weights, columns, signed, 0), Err(3));
                assert_eq!(build(weights, columns, signed, 4_096), Err(3));
            }
        }
    }
    for columns in [193, 194, 200, 256, 448] {
        for rows in [1, 128, 129] {
            matrix_is_refused(&zeros(rows, columns), 3);
        }
    }
}

/// Fields of 16 bits, and bytes of 0 after them.
fn record(fields: &[usize], bytes: usize) -> Vec<u8> {
    let mut file = Vec::new();
    fields.iter().for_each(|&value| put(&mut file, value));
    file.resize(file.len() + bytes, 0);
    file
}

/// A row of 192 columns takes 24 bytes, and one of 193 takes 25.
#[test]
fn checks_around_192_columns_come_in_their_order() {
    for (fields, bytes, number) in [
        ([33, 16, 1, 193], 25, 2),
        ([33, 32, 1, 193], 24, 1),
        ([33, 32, 1, 192], 24, 1),
        ([33, 32, 1, 193], 25, 3),
        ([32, 32, 1, 193], 24, 3),
        ([32, 32, 1, 193], 25, 3),
        ([33, 32, 129, 193], 25, 3),
        ([32, 32, 129, 192], 24, 3),
        ([32, 32, 0, 192], 24, 3),
        ([33, 32, 1, 192], 25, 4),
        ([31, 32, 1, 192], 24, 4),
        ([32, 32, 1, 192], 25, 4),
        ([24, 32, 1, 129], 16, 4),
        ([24, 32, 1, 129], 17, 4),
        ([26, 32, 1, 136], 18, 4),
    ] {
        matrix_is_refused(&record(&fields, bytes), number);
    }
    for (columns, bytes) in [(129, 17), (136, 17), (191, 24), (192, 24)] {
        let file = record(&[8 + bytes, 32, 1, columns], bytes);
        assert_eq!(check(&file), Ok((1, columns)));
    }
}

/// Every spare bit of every number of columns above 128: 5 comes after 4, and before 6, which comes
/// before 13.
#[test]
fn spare_bits_of_wide_rows_are_tried() {
    for columns in 129..=192usize {
        let ones = "1".repeat(columns);
        let above = file_of(&[ones.clone(), ones]);
        matrix_is_refused(&above, 6);
        for bit in 0..columns.next_multiple_of(8) - columns {
            let mut file = above.clone();
            *file.last_mut().unwrap() |= 1 << bit;
            matrix_is_refused(&file, 5);
            file.push(0);
            matrix_is_refused(&file, 4);
        }
    }
}

/// Two halves are 2^n, and so are 1 and all the rest; one more is above, however it is added.
#[test]
fn a_total_of_two_to_the_n_is_accepted_at_every_n() {
    for columns in 129..=192 {
        let (half, one) = (set_in(0, columns), set_in(columns - 1, columns));
        let rest = "1".repeat(columns);
        for pair in [[half.clone(), half.clone()], [one.clone(), rest]] {
            assert_eq!(check(&file_of(&pair)), Ok((2, columns)));
            let above = [&pair[..], std::slice::from_ref(&one)].concat();
            assert_eq!(check(&file_of(&above)), Err(6));
            let entries: Vec<u8> = above.concat().bytes().map(|digit| digit - b'0').collect();
            assert_eq!(write(3, columns, &entries, 0), Err(6));
        }
    }
}

/// 1/3 is 0.0101.. in binary, and 2/3 is 0.1010..; for signed use 1/5 is 0.00110011.. and 4/5 is
/// 0.11001100... A row is the first n digits.
#[test]
fn rows_of_weights_are_the_first_digits_of_their_shares() {
    for columns in 129..=192usize {
        let length = 8 + 3 * columns.div_ceil(8);
        for (signed, first, second) in [(false, "01", "10"), (true, "0011", "1100")] {
            let rows = [first, second, "0"].map(|digits| repeated(digits, columns));
            let answer = build(&[1, 2, 0], columns, signed, length);
            assert_eq!(answer, Ok(file_of(&rows)), "{columns} columns");
            assert_eq!(build(&[1, 2, 0], columns, signed, length - 1), Err(13));
        }
        // All of S is the largest number of so many bits.
        let all = ["0", "1"].map(|digits| repeated(digits, columns));
        for signed in [false, true] {
            let answer = build(&[0, u32::MAX], columns, signed, usize::MAX);
            assert_eq!(answer, Ok(file_of(&all)));
        }
    }
}

/// 128 of the largest weights, with 192 columns: 2^192 / 128 each, and for signed use, where S is 255
/// times the weight and 255 × 0101..01 is 2^192 - 1, 0101..01 and 0202..02.
#[test]
fn the_most_weights_with_the_most_columns() {
    let part = [&[0x02][..], &[0x00; 23]].concat();
    let plain = build(&[u32::MAX; 128], 192, false, 3_080).unwrap();
    assert_eq!(plain[8..], part.repeat(128));
    let signed = build(&[u32::MAX; 128], 192, true, 3_080).unwrap();
    assert_eq!(signed[8..32], [0x01; 24]);
    assert_eq!(signed[32..], [0x02; 127 * 24]);
    for signed in [false, true] {
        assert_eq!(build(&[u32::MAX; 128], 192, signed, 3_079), Err(13));
        assert_eq!(build(&[u32::MAX; 129], 192, signed, 4_096), Err(3));
        assert_eq!(build(&[0; 128], 192, signed, 0), Err(11));
    }
}

/// One row, set in one column of 192: all zeros hit there, and a 1 in any column up to it misses, as
/// its distance never comes back to 0. A 1 after it changes nothing.
#[test]
fn hits_and_misses_in_every_column() {
    for column in 0..192 {
        let file = file_of(&[set_in(column, 192)]);
        for one in [0, 63, 64, 127, 128, 190, 191] {
            let mut string = [0; 24];
            string[one / 8] = 0x80 >> (one % 8);
            let (row, used) = match one > column {
                true => (Some(0), column + 1),
                false => (None, 192),
            };
            assert_eq!(walk(&file, &string), Ok(Walked { row, used }));
            assert_eq!(spent(&file, &string.repeat(64)), Ok(64 * used));
        }
    }
}

/// Of 64 strings a part hits in the first column and a part in the last: 1 and 192 columns each.
#[test]
fn columns_used_are_added_up_to_12288() {
    let file = file_of(&[set_in(0, 192), set_in(191, 192)]);
    let (mut early, mut late) = (vec![0x00; 24], vec![0x00; 24]);
    (early[23], late[0]) = (0xff, 0x80);
    for lanes in [0, 1, 32, 63, 64] {
        let strings = [late.repeat(lanes), early.repeat(64 - lanes)].concat();
        assert_eq!(spent(&file, &strings), Ok(192 * lanes + (64 - lanes)));
    }
    assert_eq!(spent(&file, &late.repeat(64)), Ok(12_288));
}

/// Lane j has a 1 in column 3 j alone, counted around, so that words have the lanes of their column;
/// and 64 strings with a spare bit in one of them, whichever it is.
#[test]
fn slices_of_129_to_192_columns() {
    for columns in 129..=192usize {
        let width = columns.div_ceil(8);
        let (mut strings, mut words) = (vec![0; 64 * width], vec![0u64; columns]);
        for lane in 0..64 {
            let column = 3 * lane % columns;
            strings[lane * width + column / 8] = 0x80 >> (column % 8);
            words[column] |= 1 << lane;
        }
        assert_eq!(slice(columns, &strings, columns), Ok(words));
        if columns % 8 != 0 {
            for lane in 0..64 {
                let mut spare = strings.clone();
                spare[lane * width + width - 1] |= 1;
                assert_eq!(slice(columns, &spare, columns), Err(5));
                assert_eq!(slice(columns, &spare, 0), Err(5));
                assert_eq!(slice(columns, &spare[1..], columns), Err(13));
            }
        }
    }
}

/// Two rows of n columns, of which the string of all ones alone hits the first and all zeros the
/// second; the compiled program gives the same, in each lane, and with each sign.
#[test]
fn rows_that_one_string_hits_are_drawn() {
    for columns in [129, 136, 160, 191, 192usize] {
        let width = columns.div_ceil(8);
        let file = file_of(&[set_in(columns - 1, columns), "1".repeat(columns)]);
        let mut ones = vec![0xff; width];
        ones[width - 1] <<= 8 * width - columns;
        assert_eq!(string_for(&file, 0, width), Ok(Some(ones.clone())));
        assert_eq!(string_for(&file, 1, width), Ok(Some(vec![0x00; width])));
        for row in [0, 1, 2] {
            let number = if row < 2 { 13 } else { 3 };
            assert_eq!(string_for(&file, row, width - 1), Err(number));
        }
        let program = compile(&file, usize::MAX).unwrap();
        for lane in 0..64 {
            let mut strings = vec![0x00; 64 * width];
            strings[lane * width..][..width].copy_from_slice(&ones);
            let (mut plain, mut negated) = ([1; 64], [-1; 64]);
            (plain[lane], negated[lane]) = (0, 0);
            assert_eq!(draw(&program, &strings, 64), Ok(plain.to_vec()));
            let drawn = draw_signed(&program, &strings, u64::MAX, 64);
            assert_eq!(drawn, Ok(negated.to_vec()));
        }
    }
}

/// Import, export and lookup keep 63 columns, and an export tries the file first.
#[test]
fn cumulative_tables_keep_63_columns() {
    for columns in 64..=192 {
        assert_eq!(import(&[0, 1], columns, usize::MAX), Err(3));
        assert_eq!(lookup(&[0, 1], columns, 1), Err(3));
        for table_lent in [0, 1, 2, usize::MAX] {
            assert_eq!(export(&zeros(1, columns), table_lent), Err(3));
        }
    }
    for columns in WIDER {
        assert_eq!(import(&[0, 1], columns, usize::MAX), Err(3));
        assert_eq!(lookup(&[0, 1], columns, 1), Err(3));
    }
}

/// A program with the most registers and outputs: INPUT 1023 of the last input, then NOT 1023 1023,
/// then every output from register 1023; its header counts `count` instructions, and `there` are.
fn long_program(inputs: usize, count: u32, there: usize) -> Vec<u8> {
    let mut file = record(&[16, 16, 1_024, inputs, 8, 128], 0);
    file.extend(count.to_le_bytes());
    file.extend(record(&[8, 3, 1_023, inputs - 1], 0));
    file.extend(record(&[8, 4, 1_023, 1_023], 0).repeat(there - 9));
    for output in 0..8 {
        file.extend(record(&[8, 7, output, 1_023], 0));
    }
    file
}

#[test]
fn inputs_from_1_to_192_are_taken() {
    for inputs in 1..=192 {
        let program = long_program(inputs, 9, 9);
        assert_eq!(program::check(&program).unwrap().inputs, inputs);
        // One word, of the last input, is what the outputs are.
        let mut words = vec![0; inputs];
        words[inputs - 1] = 0x1234;
        let run = start(&program, &words, 1_024, 8, 9).unwrap();
        assert_eq!(run.outputs, [0x1234; 8]);
        assert_eq!(start(&program, &words[1..], 1_024, 8, 9), Err(13));
        // The next input number is 8.
        let mut beyond = program.clone();
        beyond[22] += 1;
        assert_eq!(program::check(&beyond), Err(8));
    }
    for inputs in [193, 194, 256, 448, 65_535] {
        let program = long_program(inputs, 9, 9);
        assert_eq!(program::check(&program), Err(3));
        let mut both = program.clone();
        both[0] = 15;
        assert_eq!(program::check(&both), Err(4));
        assert_eq!(program::check(&program[..15]), Err(1));
    }
}

#[test]
fn instructions_up_to_262144_are_taken() {
    for (count, there, answer) in [
        (131_072, 131_072, Ok(131_072)),
        (131_073, 131_073, Ok(131_073)),
        (262_144, 262_144, Ok(262_144)),
        (262_144, 262_143, Err(1)),
        (262_144, 262_145, Err(4)),
        (262_145, 262_145, Err(3)),
        (262_145, 262_144, Err(3)),
        (u32::MAX, 262_144, Err(3)),
    ] {
        let program = long_program(192, count, there);
        let checked = program::check(&program).map(|header| header.count);
        assert_eq!(checked, answer, "{count} and {there}");
        let run = start(&program, &[7; 192], 1_024, 8, u32::MAX);
        assert_eq!(run.map(|run| run.count as usize), answer);
    }
}

/// What a long program leaves after so many instructions, on an input of 0x5555: the complement after
/// an odd number of NOTs, and one output more for each of the last eight.
fn left_after(done: u32, count: u32) -> (Vec<u64>, Vec<u64>) {
    let (mut registers, mut outputs) = (vec![0; 1_024], vec![0; 8]);
    let nots = done.saturating_sub(1).min(count - 9);
    if done > 0 {
        registers[1_023] = if nots & 1 == 0 { 0x5555 } else { !0x5555 };
    }
    let set = (done + 8).saturating_sub(count) as usize;
    outputs[..set].fill(registers[1_023]);
    (registers, outputs)
}

/// A run that stands after `done` instructions of `count`.
#[track_caller]
fn stands_at(run: &Run, done: u32, count: u32) {
    assert_eq!((run.position, run.finished), (done, done == count));
    let left = (run.registers.clone(), run.outputs.clone());
    assert_eq!(left, left_after(done, count));
}

/// Stopped next to 65,536, 131,072, 196,608 and the count, and resumed to the end, by one and at
/// once; a position above the count is 12.
#[test]
fn long_programs_stop_and_resume() {
    for count in [131_073, 200_001, 262_144] {
        let program = long_program(1, count, count as usize);
        for around in [65_536, 131_072, 196_608, count - 8, count] {
            for budget in around - 1..=around + 1 {
                let stop = start(&program, &[0x5555], 1_024, 8, budget).unwrap();
                let done = budget.min(count);
                assert_eq!(stop.count, done);
                stands_at(&stop, done, count);
                let (registers, outputs) = (&stop.registers, &stop.outputs);
                let next = |budget: u32| {
                    let run = resume(&program, &[0x5555], registers, outputs, done, budget);
                    run.unwrap()
                };
                assert_eq!(next(1).count, u32::from(done < count));
                stands_at(&next(0), done, count);
                stands_at(&next(1), count.min(done + 1), count);
                assert_eq!(next(u32::MAX).count, count - done);
                stands_at(&next(u32::MAX), count, count);
            }
        }
        let beyond = resume(&program, &[0x5555], &[0; 1_024], &[0; 8], count + 1, 0);
        assert_eq!(beyond, Err(12));
    }
}

/// The words on which it runs: any, but for lane 9, which carries ones alone and misses.
fn words_of_longest() -> Vec<u64> {
    let words = Random::new(8).words(192);
    words.into_iter().map(|word| word | 1 << 9).collect()
}

#[test]
fn the_longest_compiled_program_runs() {
    let (program, inputs) = (
        compile(&longest_program().encode(), usize::MAX).unwrap(),
        words_of_longest(),
    );
    let header = program::check(&program).unwrap();
    let sizes = (header.registers, header.inputs, header.outputs);
    assert_eq!((sizes, header.count), ((394, 192, 8), 178_509));
    assert_eq!(header.rows, 128);
    let run = start(&program, &inputs, 394, 8, 178_509).unwrap();
    assert_eq!((run.finished, run.count), (true, 178_509));
    for lane in 0..64 {
        let bit = |output: usize| run.outputs[output] >> lane & 1;
        let number = (0..7).map(|t| bit(1 + t) << t).sum();
        let given = (bit(0) == 1).then_some(number);
        assert_eq!(given, row_of_longest(&inputs, lane));
        assert_eq!(given.is_none(), lane == 9);
    }
}

/// Stops on both sides of 131,072 and of the count; the run ends as the unbroken one does.
#[test]
fn the_longest_compiled_program_stops_and_resumes() {
    let (program, inputs) = (
        compile(&longest_program().encode(), usize::MAX).unwrap(),
        words_of_longest(),
    );
    let whole = start(&program, &inputs, 394, 8, u32::MAX).unwrap();
    let mut run = start(&program, &inputs, 394, 8, 131_071).unwrap();
    for (budget, position) in [
        (1, 131_072),
        (1, 131_073),
        (40_000, 171_073),
        (7_435, 178_508),
        (0, 178_508),
        (1, 178_509),
        (1, 178_509),
    ] {
        let (registers, outputs, done) = (&run.registers, &run.outputs, run.position);
        run = resume(&program, &inputs, registers, outputs, done, budget).unwrap();
        assert_eq!((run.position, run.count), (position, position - done));
        assert_eq!(run.finished, position == 178_509);
    }
    assert_eq!(
        (run.registers, run.outputs),
        (whole.registers, whole.outputs)
    );
}
