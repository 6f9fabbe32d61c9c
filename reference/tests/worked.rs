//! 01, "Checked by hand": every case, with the answers that stand there. 02, by hand: order 1, the
//! columns that these walks use; order 2, results of four samples; order 4, cumulative tables;
//! order 5, weights for signed use; order 6, the value bits of every number of rows; order 7, strings
//! for rows; order 9, signers that draw from one buffer; order 10, the listing in 01 with its rows.

use reference::compiler::{compile, translate, value_bits, VALUE_BIT_CASES};
use reference::cumulative::{export, import, lookup, sums, Exported};
use reference::draws::{draw, draw_signed};
use reference::listing::lister;
use reference::machine::{resume, start};
use reference::matrix::{check, read, write, Matrix};
use reference::natural::Natural;
use reference::pool;
use reference::pools::Pool;
use reference::program;
use reference::refusal::Answer;
use reference::walk::{spent, walk, Walked};
use reference::wanted::string_for;
use reference::weights::build;
use reference::wide::{combine, combined_misses, result_counts, signed_counts, Counts};

fn file_of(rows: &[&str]) -> Vec<u8> {
    Matrix::from_texts(rows).encode()
}

fn hit(row: usize, used: usize) -> Answer<Walked> {
    let row = Some(row);
    Ok(Walked { row, used })
}

fn miss(used: usize) -> Answer<Walked> {
    Ok(Walked { row: None, used })
}

/// All the strings of so many bits in turn, one a lane.
fn in_turn(bits: usize) -> Vec<u8> {
    (0..64u8).map(|lane| lane << (8 - bits)).collect()
}

fn listed_program() -> Vec<u8> {
    compile(&file_of(&["1", "1"]), usize::MAX).unwrap()
}

#[test]
fn three_rows_of_two_columns() {
    let file = [0x0b, 0, 0x20, 0, 3, 0, 2, 0, 0x80, 0x40, 0x40];
    assert_eq!(file_of(&["10", "01", "01"]), file);
    assert_eq!(write(3, 2, &[1, 0, 0, 1, 0, 1], 11), Ok(file.to_vec()));
    let matrix = read(&file, 6).unwrap();
    assert_eq!((matrix.rows, matrix.columns), (3, 2));
    assert_eq!(matrix.entries, [1, 0, 0, 1, 0, 1]);
    assert_eq!(walk(&file, &[0b0000_0000]), hit(0, 1));
    assert_eq!(walk(&file, &[0b0100_0000]), hit(0, 1));
    assert_eq!(walk(&file, &[0b1000_0000]), hit(2, 2));
    assert_eq!(walk(&file, &[0b1100_0000]), hit(1, 2));
    // Each of the four strings 16 times, and one of them 64 times.
    assert_eq!(spent(&file, &in_turn(2)), Ok(16 * (1 + 1 + 2 + 2)));
    for (string, used) in [(0x00, 1), (0x40, 1), (0x80, 2), (0xc0, 2)] {
        assert_eq!(spent(&file, &[string; 64]), Ok(64 * used));
    }
}

#[test]
fn one_row_of_one_column() {
    assert_eq!(walk(&file_of(&["1"]), &[0x00]), hit(0, 1));
    assert_eq!(walk(&file_of(&["1"]), &[0x80]), miss(1));
    assert_eq!(walk(&file_of(&["0"]), &[0x00]), miss(1));
    assert_eq!(walk(&file_of(&["0"]), &[0x80]), miss(1));
    // Hit or miss, a walk uses the one column.
    for row in ["1", "0"] {
        assert_eq!(spent(&file_of(&[row]), &in_turn(1)), Ok(64));
    }
}

/// One row 010: strings 00x hit in column 1, all others miss, and these are 6 of 8.
#[test]
fn hits_and_misses_are_added_up() {
    let file = file_of(&["010"]);
    assert_eq!(walk(&file, &[0b0000_0000]), hit(0, 2));
    assert_eq!(walk(&file, &[0b0010_0000]), hit(0, 2));
    assert_eq!(walk(&file, &[0b0100_0000]), miss(3));
    assert_eq!(walk(&file, &[0b1110_0000]), miss(3));
    assert_eq!(spent(&file, &in_turn(3)), Ok(16 * 2 + 48 * 3));
}

#[test]
fn sums_and_sizes() {
    assert_eq!(check(&file_of(&["10", "10", "01"])), Err(6));
    let zeros = |rows| Matrix {
        rows,
        columns: 8,
        entries: vec![0; rows * 8],
    };
    assert_eq!(check(&zeros(128).encode()), Ok((128, 8)));
    assert_eq!(check(&zeros(129).encode()), Err(3));
}

/// 01's cases. Since order 5 of 02 that of weights 1, 1, 1 is one of plain use; the others are the
/// same for both uses.
#[test]
fn weights() {
    let thirds = build(&[1, 1, 1], 2, false, 11).unwrap();
    assert_eq!(thirds, file_of(&["01", "01", "01"]));
    assert_eq!(walk(&thirds, &[0xc0]), miss(2));
    for signed in [false, true] {
        assert_eq!(build(&[5], 3, signed, 9), Ok(file_of(&["111"])));
        assert_eq!(build(&[0, 0], 3, signed, 10), Err(11));
    }
}

/// 02, order 5: S is 1 + 2 × (1 + 1) = 5, and 4 / 5 is below 1, 4 × 2 / 5 from 1 to 2. Nothing is
/// set in column 0, so that after column 1 the distance is the string's number: 0 hits row 2, 1 row
/// 1, and row 0 has no bit to hit.
#[test]
fn weights_of_three_distances() {
    let file = build(&[1, 1, 1], 2, true, 11).unwrap();
    assert_eq!(file, file_of(&["00", "01", "01"]));
    assert_eq!(file, [0x0b, 0, 0x20, 0, 3, 0, 2, 0, 0x00, 0x40, 0x40]);
    assert_eq!(walk(&file, &[0b0000_0000]), hit(2, 2));
    assert_eq!(walk(&file, &[0b0100_0000]), hit(1, 2));
    assert_eq!(walk(&file, &[0b1000_0000]), miss(2));
    assert_eq!(walk(&file, &[0b1100_0000]), miss(2));
    let program = compile(&file, usize::MAX).unwrap();
    let distances = [2, 1, 255, 255].repeat(16);
    assert_eq!(draw(&program, &in_turn(2), 64), Ok(distances));
    let (positive, negative) = ([2, 1, 32_767, 32_767], [-2, -1, 32_767, 32_767]);
    for (sign, samples) in [(0, positive), (u64::MAX, negative)] {
        let drawn = draw_signed(&program, &in_turn(2), sign, 64);
        assert_eq!(drawn, Ok(samples.repeat(16)));
    }
}

/// The rows of small lists: for plain use, with S as 01 has it, and for signed use, with S as 02
/// has it. Where one distance has all of S its row is the largest number of so many bits.
#[test]
fn weights_for_both_uses() {
    for (weights, columns, plain, signed) in [
        // One weight is all of S either way.
        (&[5][..], 3, &["111"][..], &["111"][..]),
        (&[1], 1, &["1"], &["1"]),
        // All of S again: 8 × 5 / 5, and 8 × 10 / 10.
        (&[0, 5], 3, &["000", "111"], &["000", "111"]),
        (&[5, 0], 3, &["111", "000"], &["111", "000"]),
        // 8 × 3 / 4 and 8 / 4; S is 3 + 2 = 5, 24 / 5 and 16 / 5.
        (&[3, 1], 3, &["110", "010"], &["100", "011"]),
        // 4 × 2 / 3 and 4 / 3; S is 2 + 2 = 4, so that 0 has a half, and 1 and -1 a quarter each.
        (&[2, 1], 2, &["10", "01"], &["10", "10"]),
        // 2 / 2 each; S is 3, 2 / 3 and 4 / 3.
        (&[1, 1], 1, &["1", "1"], &["0", "1"]),
        // 8 / 4, 0 and 24 / 4; S is 1 + 2 × 3 = 7, 8 / 7, 0 and 48 / 7.
        (
            &[1, 0, 3],
            3,
            &["010", "000", "110"],
            &["001", "000", "110"],
        ),
        // 8 / 2 each, without 0; S is 4, and 8 × 2 / 4 each.
        (
            &[0, 1, 1],
            3,
            &["000", "100", "100"],
            &["000", "100", "100"],
        ),
    ] {
        assert_eq!(build(weights, columns, false, 11), Ok(file_of(plain)));
        assert_eq!(build(weights, columns, true, 11), Ok(file_of(signed)));
    }
}

/// What follows the header of a list's file for signed use with 128 columns, 16 bytes a row.
fn signed_rows(weights: &[u32]) -> Vec<[u8; 16]> {
    let file = build(weights, 128, true, 8 + 16 * weights.len()).unwrap();
    let rows = file[8..].chunks(16);
    rows.map(|row| row.try_into().unwrap()).collect()
}

/// The largest weights: S is 255 × (2^32 - 1). 255 × 0101..01 is 2^128 - 1, so that 2^128 / 255 is
/// 0101..01 and a rest of 1, and twice that 0202..02 and a rest of 2. One of all strings misses.
#[test]
fn the_largest_weights_for_signed_use() {
    let rows = signed_rows(&[u32::MAX; 128]);
    assert_eq!(rows[0], [0x01; 16]);
    assert_eq!(rows[1..], [[0x02; 16]; 127]);
    let file = build(&[u32::MAX; 128], 128, true, 2_056).unwrap();
    assert_eq!(read(&file, 16_384).unwrap().misses(), Natural::from(1));
}

/// 0 alone has a weight, or all others have. In 128 bits 2^128 / 127 is 0000001 eighteen times and
/// then 00, since 127 × (1 + 2^7 + .. + 2^119) is 2^126 - 1.
#[test]
fn zero_alone_and_all_but_zero() {
    let mut alone = [0; 128];
    alone[0] = u32::MAX;
    let rows = signed_rows(&alone);
    assert_eq!(rows[0], [0xff; 16]);
    assert_eq!(rows[1..], [[0x00; 16]; 127]);
    let mut others = [u32::MAX; 128];
    others[0] = 0;
    let file = build(&others, 128, true, 2_056).unwrap();
    let row = format!("{}00", "0000001".repeat(18));
    let rows = [&["0".repeat(128)][..], &vec![row; 127]].concat();
    let rows: Vec<&str> = rows.iter().map(String::as_str).collect();
    assert_eq!(file, file_of(&rows));
    // 2^128 × 2 / 4, and 2^128 × 2 / 6.
    let half = [&[0x80][..], &[0x00; 15]].concat();
    assert_eq!(signed_rows(&[0, u32::MAX, u32::MAX])[1..], [&half[..]; 2]);
    assert_eq!(signed_rows(&[0, 7, 7, 7])[1..], [[0x55; 16]; 3]);
}

/// 2 × w takes 33 bits. 2^31 twice is thirds, as 1 twice is; and (2^32 + 1) × 0000 0000 ffff ffff
/// 0000 0000 ffff ffff is 2^128 - 1.
#[test]
fn twice_a_weight_may_have_33_bits() {
    let thirds = [[0x55; 16], [0xaa; 16]];
    for weight in [1, 1 << 30, 1 << 31, (1 << 31) + 1, u32::MAX] {
        assert_eq!(signed_rows(&[weight, weight]), thirds);
    }
    let (zeros, ones) = ([0x00; 4], [0xff; 4]);
    let rows = signed_rows(&[1, 1 << 31]);
    assert_eq!(rows[0], *[zeros, ones, zeros, ones].concat());
    assert_eq!(rows[1], *[ones, zeros, ones, zeros].concat());
}

#[test]
fn listing() {
    let text = "10 1 2 2 12
0 ONES 4
1 ZERO 2
2 ZERO 3
3 INPUT 0 0
4 NOT 1 0
5 AND 6 4 1
6 AND 7 4 0
7 OR 2 2 6
8 OR 3 3 6
9 OR 2 2 7
10 OUTPUT 0 2
11 OUTPUT 1 3
";
    assert_eq!(lister(&file_of(&["1", "1"])), text);
    assert_eq!(lister(&file_of(&["10", "10", "01"])), "refused 6\n");
    assert_eq!(lister(&[]), "refused 1\n");
}

#[test]
fn bytes_of_the_listed_program() {
    let instructions: [&[u8]; 12] = [
        &[6, 0, 1, 0, 4, 0],
        &[6, 0, 2, 0, 2, 0],
        &[6, 0, 2, 0, 3, 0],
        &[8, 0, 3, 0, 0, 0, 0, 0],
        &[8, 0, 4, 0, 1, 0, 0, 0],
        &[10, 0, 5, 0, 6, 0, 4, 0, 1, 0],
        &[10, 0, 5, 0, 7, 0, 4, 0, 0, 0],
        &[10, 0, 6, 0, 2, 0, 2, 0, 6, 0],
        &[10, 0, 6, 0, 3, 0, 3, 0, 6, 0],
        &[10, 0, 6, 0, 2, 0, 2, 0, 7, 0],
        &[8, 0, 7, 0, 0, 0, 2, 0],
        &[8, 0, 7, 0, 1, 0, 3, 0],
    ];
    let mut file = vec![16, 0, 16, 0, 10, 0, 1, 0, 2, 0, 2, 0, 12, 0, 0, 0];
    file.extend(instructions.concat());
    assert_eq!(listed_program(), file);
    let header = program::check(&file).unwrap();
    let sizes = (header.registers, header.inputs, header.outputs);
    assert_eq!((sizes, header.rows, header.count), ((10, 1, 2), 2, 12));
}

/// 02, order 6: the cases go through 1 to 128 rows in turn. In each, m - 1 is below 2^k and, where k
/// is above 0, not below 2^(k-1); and a program has k of its registers and outputs for the value.
/// The four samples of section 3.1 of 002, of two bits each, are in the third.
#[test]
fn value_bits_by_cases() {
    let mut rows = 1..=128;
    for (fewest, most, bits) in VALUE_BIT_CASES {
        for m in fewest..=most {
            assert_eq!(rows.next(), Some(m));
            assert_eq!(value_bits(m), bits, "{m} rows");
            assert_eq!((m - 1) >> bits, 0);
            assert!(bits == 0 || (m - 1) >> (bits - 1) == 1);
            let program = compile(&file_of(&vec!["0000001"; m]), usize::MAX).unwrap();
            let header = program::check(&program).unwrap();
            assert_eq!(header.registers, 3 + bits + 3 * m);
            assert_eq!(header.outputs, 1 + bits);
            assert_eq!(header.rows, m);
        }
    }
    assert_eq!(rows.next(), None);
}

#[test]
fn budgets_of_the_listed_program() {
    let program = listed_program();
    let finished = start(&program, &[0b01], 10, 2, 12).unwrap();
    assert_eq!(
        (finished.finished, finished.position, finished.count),
        (true, 12, 12)
    );
    assert_eq!(finished.outputs, [u64::MAX, u64::MAX - 1]);
    let stopped = start(&program, &[0b01], 10, 2, 11).unwrap();
    assert_eq!(
        (stopped.finished, stopped.position, stopped.count),
        (false, 11, 11)
    );
    assert_eq!(stopped.outputs, [u64::MAX, 0]);
    let done = resume(
        &program,
        &[0b01],
        &finished.registers,
        &finished.outputs,
        12,
        0,
    )
    .unwrap();
    assert_eq!((done.finished, done.position, done.count), (true, 12, 0));
    assert_eq!(
        (done.registers, done.outputs),
        (finished.registers.clone(), finished.outputs.clone())
    );
    let beyond = resume(
        &program,
        &[0b01],
        &finished.registers,
        &finished.outputs,
        13,
        0,
    );
    assert_eq!(beyond, Err(12));
}

/// "Misreadings to shut out": from row 0 upward, string 10 would give 1 and 11 would give 2.
#[test]
fn rows_are_met_from_the_last_down() {
    let program = translate(&Matrix::from_texts(&["10", "01", "01"])).encode();
    // Lanes 0 to 3 carry 00, 01, 10, 11.
    let run = start(&program, &[0b1100, 0b1010], 14, 3, u32::MAX).unwrap();
    let lanes: Vec<u64> = run.outputs.iter().map(|word| word & 15).collect();
    assert_eq!(lanes, [0b1111, 0b1000, 0b0100]);
}

/// The results of lanes that all have these four entries.
fn combined(entries: [i16; 4], first: u32, second: u32) -> Answer<Vec<i32>> {
    let [x1, x2, x3, x4] = entries.map(|entry| [entry; 64]);
    combine(&x1, &x2, &x3, &x4, first, second, 64)
}

#[test]
fn four_samples_are_combined() {
    for (entries, first, second, result) in [
        // (5 - 6) + 11 × (7 + 3) = -1 + 110, as source document 002 multiplies.
        ([5, -2, 7, 1], 3, 11, 109),
        // Each part by itself.
        ([1, 0, 0, 0], 3, 11, 1),
        ([0, 1, 0, 0], 3, 11, 3),
        ([0, 0, 1, 0], 3, 11, 11),
        ([0, 0, 0, 1], 3, 11, 33),
        ([0, 0, 0, 0], 3, 11, 0),
        // (2 + 55) + 3 × (-4 + 11) = 57 + 21
        ([2, 5, -4, 1], 11, 3, 78),
        ([1, 2, 3, 4], 1, 1, 10),
        // (127 + 127,000) + 1,000 × (127 + 127,000) = 127,127 + 127,127,000, and what is opposite.
        ([127, 127, 127, 127], 1_000, 1_000, 127_254_127),
        ([-127, -127, -127, -127], 1_000, 1_000, -127_254_127),
        // (127 - 127,000) + 1,000 × (127 - 127,000) = -126,873 - 126,873,000
        ([127, -127, 127, -127], 1_000, 1_000, -126_999_873),
    ] {
        assert_eq!(combined(entries, first, second), Ok(vec![result; 64]));
    }
}

#[test]
fn a_miss_of_any_part_is_the_result() {
    for list in 0..4 {
        let mut entries = [5, -2, 7, 1];
        entries[list] = 32_767;
        assert_eq!(combined(entries, 3, 11), Ok(vec![2_147_483_647; 64]));
    }
    assert_eq!(combined([32_767; 4], 1, 1), Ok(vec![2_147_483_647; 64]));
    // Lane 1 has a miss, and no other lane.
    let mut x3 = [7; 64];
    x3[1] = 32_767;
    let results = combine(&[5; 64], &[-2; 64], &x3, &[1; 64], 3, 11, 64).unwrap();
    assert_eq!(results[..3], [109, 2_147_483_647, 109]);
    assert_eq!(results[3..], [109; 61]);
}

/// 02: 14, then 13, then 5.
#[test]
fn what_can_not_be_combined() {
    let (list, short) = ([1; 64], [1; 63]);
    assert_eq!(combined([1; 4], 0, 11), Err(14));
    assert_eq!(combined([1; 4], 3, 1_001), Err(14));
    assert_eq!(combine(&list, &list, &short, &list, 3, 11, 64), Err(13));
    assert_eq!(combine(&list, &list, &list, &list, 3, 11, 63), Err(13));
    assert_eq!(combined([1, 1, 1, 128], 3, 11), Err(5));
    assert_eq!(combined([-128, 1, 1, 1], 3, 11), Err(5));
}

fn counts_of(counts: &[(i64, u64)]) -> Counts {
    let each = counts.iter();
    each.map(|&(number, times)| (number, Natural::from(times)))
        .collect()
}

/// Rows 10, 01, 01, where two strings give 0, each with both signs; and a coin, whose counts 1, 2, 1
/// of -1, 0, 1 make the binomial numbers of 8 where four of them are added up.
#[test]
fn counts_of_samples_and_results() {
    let three = Matrix::from_texts(&["10", "01", "01"]);
    let counts = counts_of(&[(-2, 1), (-1, 1), (0, 4), (1, 1), (2, 1)]);
    assert_eq!(signed_counts(&three), counts);
    let coin = Matrix::from_texts(&["1", "1"]);
    let sums = (-4..).zip([1, 8, 28, 56, 70, 56, 28, 8, 1]);
    let sums: Vec<(i64, u64)> = sums.collect();
    assert_eq!(result_counts([&coin; 4], 1, 1), counts_of(&sums));
    assert!(combined_misses([&coin; 4]).is_zero());
    // Each part is 0 or misses: of its four choices of a string and a sign two hit.
    let zero = Matrix::from_texts(&["1"]);
    assert_eq!(result_counts([&zero; 4], 3, 11), counts_of(&[(0, 16)]));
    assert_eq!(combined_misses([&zero; 4]), Natural::from(256 - 16));
}

/// 02, order 4, on the rows 10, 01, 01: T is 0, 2, 3, 4. Of the four strings, too, two give 0, one
/// gives 1 and one gives 2.
#[test]
fn table_of_three_rows() {
    let file = [0x0b, 0, 0x20, 0, 3, 0, 2, 0, 0x80, 0x40, 0x40];
    let table = [0, 2, 3, 4];
    assert_eq!(import(&table, 2, 11), Ok(file.to_vec()));
    let exported = Exported {
        columns: 2,
        table: table.to_vec(),
    };
    assert_eq!(export(&file, 4), Ok(exported));
    for (r, sample) in [(1, 0), (2, 0), (3, 1), (4, 2)] {
        assert_eq!(lookup(&table, 2, r), Ok(Some(sample)));
    }
    assert_eq!(lookup(&table, 2, 0), Err(3));
    assert_eq!(lookup(&table, 2, 5), Err(3));
}

/// Rows 001, 000, 010, 011 of three columns: T is 0, 1, 1, 3, 6, no r gives 1, and 7 and 8 miss.
#[test]
fn table_with_a_row_of_0_and_misses() {
    let file = file_of(&["001", "000", "010", "011"]);
    let table = [0, 1, 1, 3, 6];
    assert_eq!(import(&table, 3, usize::MAX).as_ref(), Ok(&file));
    assert_eq!(export(&file, usize::MAX).unwrap().table, table);
    let found: Vec<_> = (1..=8).map(|r| lookup(&table, 3, r).unwrap()).collect();
    let hits = [0, 2, 2, 3, 3, 3].map(Some);
    assert_eq!(found, [&hits[..], &[None; 2]].concat());
    // No row at all has a 1.
    assert_eq!(import(&[0, 0], 1, 9), Ok(file_of(&["0"])));
    for r in [1, 2] {
        assert_eq!(lookup(&[0, 0], 1, r), Ok(None));
    }
}

/// 2^63 is the last number of two rows of 63 columns, 1 and 2^63 - 1.
#[test]
fn table_of_63_columns() {
    let (top, one) = (1 << 63, format!("{}1", "0".repeat(62)));
    let file = file_of(&[&one, &"1".repeat(63)]);
    assert_eq!(import(&[0, 1, top], 63, 24).as_ref(), Ok(&file));
    let exported = export(&file, 3).unwrap();
    assert_eq!((exported.columns, exported.table), (63, vec![0, 1, top]));
    for (r, sample) in [(1, 0), (2, 1), (top - 1, 1), (top, 1)] {
        assert_eq!(lookup(&[0, 1, top], 63, r), Ok(Some(sample)));
    }
    // With 64 columns the last sum is 2^64, which has no place in 64 bits.
    let wide = Matrix::from_texts(&[&format!("0{one}"), &"1".repeat(64)]);
    let all = Natural::power_of_two(64);
    assert_eq!(sums(&wide), [Natural::zero(), Natural::from(1), all]);
    assert_eq!(export(&wide.encode(), 3), Err(3));
}

/// 02: 3, then 15, then 16, then 13.
#[test]
fn what_can_not_be_imported() {
    for (table, columns, number) in [
        (&[0][..], 2, 3),
        (&[0, 1], 0, 3),
        (&[0, 1], 64, 3),
        (&[1, 2], 2, 15),
        (&[0, 2, 1], 2, 15),
        (&[0, 5], 2, 15),
        (&[0, 4], 2, 16),
        (&[0, 0, 4, 4], 2, 16),
    ] {
        assert_eq!(import(table, columns, usize::MAX), Err(number));
        assert_eq!(lookup(table, columns, 1), Err(number));
    }
    assert_eq!(import(&[0, 3], 2, 8), Err(13));
    assert_eq!(import(&[0, 3], 2, 9), Ok(file_of(&["11"])));
}

/// The strings for all rows of a matrix, with just enough room, as texts.
fn strings_for(rows: &[&str]) -> Vec<Option<String>> {
    let (file, columns) = (file_of(rows), rows[0].len());
    let text = |string: Vec<u8>| {
        let bits: String = string.iter().map(|byte| format!("{byte:08b}")).collect();
        assert!(bits[columns..].bytes().all(|spare| spare == b'0'));
        bits[..columns].to_string()
    };
    let string = |row| string_for(&file, row, columns.div_ceil(8)).unwrap();
    (0..rows.len()).map(|row| string(row).map(text)).collect()
}

/// These strings, of which `-` is none.
fn texts(strings: &[&str]) -> Vec<Option<String>> {
    let text = |string: &&str| (*string != "-").then(|| string.to_string());
    strings.iter().map(text).collect()
}

/// 02, order 7, on the rows 10, 01, 01, of which 01 says: strings 00 and 01 give 0, 10 gives 2, 11
/// gives 1. Of the two for row 0 the first is the smaller.
#[test]
fn strings_for_three_rows() {
    assert_eq!(strings_for(&["10", "01", "01"]), texts(&["00", "11", "10"]));
    let file = file_of(&["10", "01", "01"]);
    for (row, string) in [(0, 0x00), (1, 0xc0), (2, 0x80)] {
        for string_lent in [1, 2, usize::MAX] {
            assert_eq!(string_for(&file, row, string_lent), Ok(Some(vec![string])));
        }
        assert_eq!(string_for(&file, row, 0), Err(13));
    }
    assert_eq!(string_for(&file, 3, 1), Err(3));
    assert_eq!(string_for(&file, 3, 0), Err(3));
}

/// Rows 001, 000, 010, 011. After column 1 the distance is the number of two bits: 00 hits row 3, 01
/// row 2, and 10 and 11 have 0 and 1 left. Column 2 makes these 0 to 3: 100 hits row 3 again, 101
/// row 0, and two strings miss. Row 1 is all zero.
#[test]
fn strings_for_rows_of_which_one_is_zero() {
    let rows = ["001", "000", "010", "011"];
    assert_eq!(strings_for(&rows), texts(&["101", "-", "010", "000"]));
    // There is none, however long the room is, and none without room.
    assert_eq!(string_for(&file_of(&rows), 1, usize::MAX), Ok(None));
    assert_eq!(string_for(&file_of(&rows), 1, 0), Err(13));
}

#[test]
fn strings_for_rows_of_one_column() {
    assert_eq!(strings_for(&["1"]), texts(&["0"]));
    assert_eq!(strings_for(&["0"]), texts(&["-"]));
    // The last row is met first.
    assert_eq!(strings_for(&["1", "1"]), texts(&["1", "0"]));
    assert_eq!(strings_for(&["0", "1", "0"]), texts(&["-", "0", "-"]));
    assert_eq!(strings_for(&["1", "0", "1"]), texts(&["1", "-", "0"]));
}

/// Row 0 is 1 and row 1 is 2^n - 1: every string that begins with 0 hits row 1 in column 0, every
/// one that begins with 10 in column 1, and so on, and of the last two 1..10 hits row 1 too, which is
/// met first, and 1..11 alone row 0. With the rows exchanged it is 1..10 that hits the 1.
#[test]
fn strings_for_rows_that_one_string_hits() {
    for columns in [1, 2, 3, 7, 8, 9, 63, 64, 65, 127, 128, 129, 191, 192] {
        let zeros = "0".repeat(columns - 1);
        let (one, ones) = (format!("{zeros}1"), "1".repeat(columns));
        let zero = format!("{zeros}0");
        let strings = texts(&[&ones, &zero]);
        assert_eq!(strings_for(&[&one, &ones]), strings);
        let last = format!("{}0", &ones[1..]);
        // In one column both are met there, and the last row first.
        let strings = match columns {
            1 => texts(&["1", "0"]),
            _ => texts(&[&zero, &last]),
        };
        assert_eq!(strings_for(&[&ones, &one]), strings);
    }
}

/// Set in the last of n columns alone, 128 rows: after it the distance is the string's number, so
/// that the string that spells s hits row 127 - s.
#[test]
fn strings_for_rows_of_the_last_column() {
    for columns in [7, 8, 9, 16, 65, 128, 129, 192] {
        let one = format!("{}1", "0".repeat(columns - 1));
        let spelled = |v: usize| Some(format!("{:0columns$b}", 127 - v));
        let strings: Vec<_> = (0..128).map(spelled).collect();
        assert_eq!(strings_for(&[one.as_str(); 128]), strings);
    }
}

/// Rows 0110, 0101, 0011: nothing is set in column 0. In column 1 00 hits row 1 and 01 row 0, both
/// before the rows that are set later; 10 and 11 have 0 and 1 left. In column 2 these are 0 to 3: 100
/// hits row 2, 101 row 0 again, and 110 and 111 have 0 and 1 left. In column 3 1100 hits row 2 and
/// 1101 row 1 again.
#[test]
fn strings_for_rows_with_several_ones() {
    let strings = texts(&["0100", "0000", "1000"]);
    assert_eq!(strings_for(&["0110", "0101", "0011"]), strings);
}

/// Reserve, cap and what was drawn, of each signer.
type Records<'a> = &'a [(u32, u32, u32)];

/// What a draw on these records comes to: the start, and what each signer has drawn after it.
fn drawn(words: usize, records: Records, signer: usize, q: usize) -> Answer<(usize, Vec<u32>)> {
    let before = Pool::of(words, records).signers;
    let granted = pool::draw(words, &before, signer, q)?;
    // Nothing else changes.
    let mut wanted = before.clone();
    wanted[signer].drawn += q as u32;
    assert_eq!(granted.signers, wanted);
    let after = granted.signers.iter().map(|signer| signer.drawn);
    Ok((granted.start, after.collect()))
}

/// What an opening, or a refill, of these records comes to: what each signer has drawn after it.
fn cleared(words: usize, records: Records, refilled: bool) -> Answer<Vec<u32>> {
    let before = Pool::of(words, records).signers;
    let after = match refilled {
        false => pool::open(words, &before)?,
        true => pool::refill(words, &before)?,
    };
    for (one, other) in before.iter().zip(&after) {
        assert_eq!((one.reserve, one.cap), (other.reserve, other.cap));
    }
    Ok(after.iter().map(|signer| signer.drawn).collect())
}

/// Of 12 words signer 0 is sure of 2, signer 1 of 3, and may not have more, and signer 2 of none.
#[test]
fn three_signers_draw_from_twelve_words() {
    let pool = |drawn: [u32; 3]| [(2, 6, drawn[0]), (3, 3, drawn[1]), (0, 12, drawn[2])];
    let draw = |before: [u32; 3], signer, q| drawn(12, &pool(before), signer, q);
    assert_eq!(cleared(12, &pool([9, 9, 9]), false), Ok(vec![0; 3]));
    // 8 leaves 4, and the others lack 5; 7 leaves these.
    assert_eq!(draw([0, 0, 0], 2, 8), Err(19));
    assert_eq!(draw([0, 0, 0], 2, 7), Ok((0, vec![0, 0, 7])));
    assert_eq!(draw([0, 0, 7], 2, 1), Err(19));
    // Signer 0 has its reserve, and no more, since signer 1 lacks the 3 words that are left.
    assert_eq!(draw([0, 0, 7], 0, 3), Err(19));
    assert_eq!(draw([0, 0, 7], 0, 2), Ok((7, vec![2, 0, 7])));
    assert_eq!(draw([2, 0, 7], 0, 1), Err(19));
    assert_eq!(draw([2, 0, 7], 1, 4), Err(18));
    assert_eq!(draw([2, 0, 7], 1, 1), Ok((9, vec![2, 1, 7])));
    assert_eq!(draw([2, 1, 7], 1, 2), Ok((10, vec![2, 3, 7])));
    // Nothing is left, and the next word would be word 12.
    assert_eq!(draw([2, 3, 7], 0, 1), Err(19));
    assert_eq!(draw([2, 3, 7], 1, 1), Err(18));
    for signer in 0..3 {
        assert_eq!(draw([2, 3, 7], signer, 0), Ok((12, vec![2, 3, 7])));
    }
    assert_eq!(draw([2, 3, 7], 3, 0), Err(17));
    assert_eq!(cleared(12, &pool([2, 3, 7]), true), Ok(vec![0; 3]));
}

/// One signer lacks nothing of another's: it may have all words up to its cap.
#[test]
fn one_signer_draws_all_words() {
    assert_eq!(drawn(5, &[(5, 9, 0)], 0, 2), Ok((0, vec![2])));
    assert_eq!(drawn(5, &[(5, 9, 2)], 0, 3), Ok((2, vec![5])));
    assert_eq!(drawn(5, &[(5, 9, 2)], 0, 4), Err(19));
    assert_eq!(drawn(5, &[(5, 9, 5)], 0, 5), Err(18));
    assert_eq!(drawn(5, &[(0, 3, 0)], 0, 4), Err(18));
    assert_eq!(drawn(5, &[(0, 3, 0)], 0, 3), Ok((0, vec![3])));
}

/// What a signer lacks itself does not hold its own draw up, and holds up those of all others.
#[test]
fn a_reserve_is_its_signers() {
    assert_eq!(drawn(4, &[(4, 4, 0), (0, 4, 0)], 1, 1), Err(19));
    for q in 0..=4 {
        let granted = drawn(4, &[(4, 4, 0), (0, 4, 0)], 0, q);
        assert_eq!(granted, Ok((0, vec![q as u32, 0])));
    }
    // Who has drawn more than its reserve lacks nothing, and not less than nothing.
    assert_eq!(drawn(9, &[(1, 9, 5), (2, 9, 0)], 1, 4), Ok((5, vec![5, 4])));
    assert_eq!(drawn(9, &[(1, 9, 5), (2, 9, 0)], 0, 3), Err(19));
    assert_eq!(drawn(9, &[(1, 9, 5), (2, 9, 0)], 0, 2), Ok((5, vec![7, 0])));
}

/// A buffer of no words can be opened where nothing is reserved, and gives nothing.
#[test]
fn no_words_at_all() {
    assert_eq!(cleared(0, &[(0, 7, 1), (0, 0, 5)], false), Ok(vec![0, 0]));
    assert_eq!(cleared(0, &[(0, 7, 0), (1, 1, 0)], false), Err(3));
    assert_eq!(drawn(0, &[(0, 7, 0)], 0, 0), Ok((0, vec![0])));
    assert_eq!(drawn(0, &[(0, 7, 0)], 0, 1), Err(19));
    assert_eq!(drawn(0, &[(0, 7, 1)], 0, 0), Err(3));
}

/// What an opening and draws can not leave: a reserve or draws above a cap; reserves, or draws, of
/// which there are not as many words; the last take 9 words, 6 that the first has drawn and 3 that the
/// second is sure of, of which it has drawn one.
#[test]
fn records_that_draws_can_not_leave() {
    for (words, records) in [
        (9, &[(3, 2, 0), (0, 5, 0)][..]),
        (9, &[(1, 2, 3), (0, 5, 0)]),
        (9, &[(4, 9, 5), (5, 5, 0)]),
        (9, &[(0, 9, 5), (0, 9, 5)]),
        (8, &[(1, 9, 6), (3, 9, 1)]),
    ] {
        assert_eq!(drawn(words, records, 0, 0), Err(3));
        assert_eq!(cleared(words, records, true), Err(3));
    }
    let edge = [(1, 9, 6), (3, 9, 1)];
    assert_eq!(drawn(9, &edge, 0, 0), Ok((7, vec![6, 1])));
    assert_eq!(cleared(9, &edge, true), Ok(vec![0, 0]));
}
