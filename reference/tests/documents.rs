//! The tables of the source documents, and what the documents say of them.

use reference::compiler::translate;
use reference::cumulative::{export, import, lookup, sums};
use reference::draws::{draw, draw_signed};
use reference::matrix::{check, decode, Matrix};
use reference::natural::Natural;
use reference::random::{self, Random};
use reference::record::{pack, unpack};
use reference::tables::document_004_cut;
use reference::tables::{document_001, document_002, document_002_fine, document_004};
use reference::vectors::line::Hash;
use reference::walk::{place_after, spent, used_by_all, walk, walk_bits, Place};
use reference::wanted::string_for;
use reference::wide::{combine, combined_misses, result_counts};

fn bits_of(text: &str) -> Vec<u8> {
    text.bytes().map(|digit| digit - b'0').collect()
}

fn row_after(matrix: &Matrix, text: &str) -> Option<usize> {
    match place_after(matrix, &bits_of(text)) {
        Place::Hit { row, .. } => Some(row),
        Place::Left(_) => None,
    }
}

/// The largest row with a bit set in the first columns: no string can hit a larger one there.
fn largest_row_within(matrix: &Matrix, columns: usize) -> usize {
    let set = |v: &usize| matrix.row(*v)[..columns].contains(&1);
    (0..matrix.rows).filter(set).max().unwrap()
}

/// What a walk uses in the mean over all strings: ten-thousandths of a column, rounded to the
/// nearest.
fn mean_used(matrix: &Matrix) -> Natural {
    let half = Natural::power_of_two(matrix.columns - 1);
    let scaled = used_by_all(matrix).times(&Natural::from(10_000));
    scaled.plus(&half).shifted_down(matrix.columns)
}

/// What 625 batches of 64 random strings spend: 40,000 walks. The deviation of their total is 200
/// times that of one walk.
fn spent_by_batches(matrix: &Matrix, seed: u64) -> usize {
    let (file, mut random) = (matrix.encode(), Random::new(seed));
    let batches = (0..625).map(|_| random::packed_strings(&mut random, matrix.columns, 64));
    batches.map(|strings| spent(&file, &strings).unwrap()).sum()
}

#[test]
fn table_of_001() {
    let matrix = document_001();
    let first = Natural::from_hexadecimal("a3a2446c95b5b00985dbb564c791ff8b");
    assert_eq!((matrix.rows, matrix.columns), (12, 128));
    for v in 0..12 {
        assert_eq!(matrix.value(v), first.shifted_down(v * v));
    }
    assert_eq!(check(&matrix.encode()), Ok((12, 128)));
}

/// Section 5.2, with the bits complemented as algorithm 8 takes 1 - r.
#[test]
fn look_up_tables_of_001() {
    let matrix = document_001();
    for (string, row) in [("0", 0), ("10", 1), ("110", 0)] {
        assert_eq!(row_after(&matrix, string), Some(row));
    }
    assert_eq!(row_after(&matrix, "111"), None);
    let mut found = 0;
    for number in 0..32u8 {
        let string = format!("111{:05b}", number);
        match place_after(&matrix, &bits_of(&string)) {
            Place::Hit { row, .. } => {
                assert!(row <= 2);
                found += 1;
            }
            Place::Left(distance) => {
                let left = if number == 31 { 1 } else { 0 };
                assert!(number >= 30 && distance == Natural::from(left));
            }
        }
    }
    assert_eq!(found, 30);
}

/// Section 5.1: about 2.031 random bits a sample, as measured there. Over all strings it is 2.0309.
#[test]
fn bits_spent_by_001() {
    let matrix = document_001();
    assert_eq!(mean_used(&matrix), Natural::from(20_309));
    // 40,000 times the mean, give or take six times the deviation, which is 200 × 1.528.
    assert!(spent_by_batches(&matrix, 1).abs_diff(81_235) < 1_834);
}

#[test]
fn table_of_002() {
    let matrix = document_002();
    assert_eq!((matrix.rows, matrix.columns), (87, 128));
    let row =
        |v: usize, digits: &str| assert_eq!(matrix.value(v), Natural::from_hexadecimal(digits));
    ROWS_002.iter().for_each(|&(v, digits)| row(v, digits));
    assert_eq!(matrix.misses(), Natural::from(41));
    assert_eq!(Hash::of(&matrix.encode()).value(), HASH_002);
}

#[test]
fn levels_of_002() {
    let matrix = document_002();
    assert_eq!(largest_row_within(&matrix, 32), 39);
    assert_eq!(largest_row_within(&matrix, 64), 56);
    // Section 3.3: no sample within 32 levels has a probability of about 2^-28.
    let open = (0..32).fold(1, |open, column| {
        2 * open - (0..87).filter(|&v| matrix.bit(v, column)).count()
    });
    assert!((12..=20).contains(&open));
}

/// A sample takes 4.8806 columns over all strings: `walk_cases.py` has it too, by exact fractions of
/// rows from 120 decimal digits.
#[test]
fn bits_spent_by_002() {
    let matrix = document_002();
    assert_eq!(mean_used(&matrix), Natural::from(48_806));
    // 40,000 times the mean, give or take six times the deviation, which is 200 × 1.701.
    assert!(spent_by_batches(&matrix, 2).abs_diff(195_225) < 2_042);
}

/// Section 4.1: four samples of deviation 6.15543 make one of 215, with k2 = 3 and k1 = 11. Over all
/// strings and signs that hit it is 215.000.
#[test]
fn deviation_of_four_samples_of_002() {
    let matrix = document_002();
    let counts = result_counts([&matrix; 4], 3, 11);
    let (mut hits, mut squares) = (Natural::zero(), Natural::zero());
    for (result, times) in &counts {
        assert_eq!(counts.get(&-result), Some(times));
        let square = Natural::from(result.unsigned_abs().pow(2));
        hits = hits.plus(times);
        squares = squares.plus(&times.times(&square));
    }
    // Between 214.9995 and 215.0005, of which the double thousandfold is squared.
    let scaled = squares.times(&Natural::from(4_000_000));
    let times_square = |number: u64| hits.times(&Natural::from(number * number));
    assert!(times_square(429_999) < scaled && scaled < times_square(430_001));
    // The largest row above 0 is 81, and (81 + 3 × 81) + 11 × (81 + 3 × 81) = 3,888.
    assert_eq!(
        counts.last_key_value().map(|(result, _)| *result),
        Some(3_888)
    );
    // 2^516 choices, of which those with four hits are (2 T)^4.
    let all = Natural::power_of_two(4 * 129);
    assert_eq!(hits.plus(&combined_misses([&matrix; 4])), all);
}

/// 100 batches of 64 results: the mean of their squares is 215^2, give or take six times its
/// deviation, which for a Gaussian is 215^2 × (2 / 6,400)^(1/2) = 817.
#[test]
fn batches_of_002_combined() {
    let program = translate(&document_002()).encode();
    let mut random = Random::new(3);
    let mut squares = 0;
    for _ in 0..100 {
        let [x1, x2, x3, x4] = [(); 4].map(|()| {
            let strings = random::packed_strings(&mut random, 128, 64);
            draw_signed(&program, &strings, random.word(), 64).unwrap()
        });
        let results = combine(&x1, &x2, &x3, &x4, 3, 11, 64).unwrap();
        squares += results
            .iter()
            .map(|result| i64::from(*result).pow(2))
            .sum::<i64>();
    }
    assert!((squares / 6_400).abs_diff(215 * 215) < 6 * 817);
}

/// The number of the string for a row of a table of 128 columns, where there is one.
fn string_number(file: &[u8], row: usize) -> Option<Natural> {
    let string = string_for(file, row, 16).unwrap();
    string.map(|string| Natural::from_bits(&unpack(&string, 128)))
}

/// 02, order 7: the strings worked out by other means; every row that is not 0 is hit in the first
/// column in which it is set, and rows 82 to 86 have no string.
#[test]
fn strings_for_the_rows_of_002() {
    let (matrix, file) = (document_002(), document_002().encode());
    for (row, digits) in STRINGS_002 {
        let number = Natural::from_hexadecimal(digits);
        assert_eq!(string_number(&file, row), Some(number), "row {row}");
    }
    for row in 0..=81 {
        let string = string_for(&file, row, 16).unwrap().unwrap();
        let walked = walk(&file, &string).unwrap();
        let zeros = 128 - matrix.value(row).width();
        assert_eq!((walked.row, walked.used), (Some(row), zeros + 1));
    }
    for row in 82..87 {
        assert_eq!(string_number(&file, row), None);
    }
    assert_eq!(string_for(&file, 87, 16), Err(3));
}

/// 02, order 8: the curve of 002 with 192 columns. 100 rows are above 0, and the first 128 columns
/// are the table of 128.
#[test]
fn fine_table_of_002() {
    let (matrix, coarse) = (document_002_fine(), document_002());
    assert_eq!((matrix.rows, matrix.columns), (100, 192));
    for (v, digits) in ROWS_002_FINE {
        assert_eq!(matrix.value(v), Natural::from_hexadecimal(digits));
    }
    for v in 0..100 {
        let expected = if v < 87 {
            coarse.value(v)
        } else {
            Natural::zero()
        };
        assert_eq!(matrix.value(v).shifted_down(64), expected);
    }
    assert_eq!(matrix.misses(), Natural::from(50));
    assert_eq!(Hash::of(&matrix.encode()).value(), HASH_002_FINE);
    let header = translate(&matrix).header;
    assert_eq!(
        (header.registers, header.inputs, header.outputs),
        (310, 192, 8)
    );
    assert_eq!(header.count, 43_985);
}

/// The mean is that of 128 columns, to ten-thousandths, and so is the deviation, 1.701.
#[test]
fn bits_spent_by_the_fine_table_of_002() {
    let matrix = document_002_fine();
    assert_eq!(mean_used(&matrix), Natural::from(48_806));
    assert!(spent_by_batches(&matrix, 6).abs_diff(195_225) < 2_042);
}

/// Strings for its rows, the 50 that miss, and random ones, 64 at a time: what they draw, with both
/// signs, is the row by which they were made, or the walk's.
#[test]
fn draws_of_the_fine_table_of_002() {
    let (matrix, file) = (document_002_fine(), document_002_fine().encode());
    let program = translate(&matrix).encode();
    let mut random = Random::new(7);
    let mut cases: Vec<(Vec<u8>, Option<usize>)> = Vec::new();
    for row in 0..100 {
        let string = string_for(&file, row, 24).unwrap().unwrap();
        let walked = walk(&file, &string).unwrap();
        let zeros = 192 - matrix.value(row).width();
        assert_eq!((walked.row, walked.used), (Some(row), zeros + 1));
        cases.push((string, Some(row)));
    }
    for i in 0..50 {
        let number = matrix.total().plus(&Natural::from(i));
        cases.push((pack(&number.bits(192)), None));
    }
    while cases.len() < 640 {
        let bits = random::string(&mut random, &matrix);
        cases.push((pack(&bits), walk_bits(&matrix, &bits).row));
    }
    for batch in cases.chunks(64) {
        let strings: Vec<u8> = batch.iter().flat_map(|case| case.0.clone()).collect();
        let rows = batch.iter().map(|case| case.1.map_or(255, |row| row as u8));
        assert_eq!(draw(&program, &strings, 64), Ok(rows.collect()));
        let negated = batch
            .iter()
            .map(|case| case.1.map_or(32_767, |row| -(row as i16)));
        let drawn = draw_signed(&program, &strings, u64::MAX, 64);
        assert_eq!(drawn, Ok(negated.collect()));
    }
}

/// 02, order 7, with 192 columns: strings worked out by other means. With 128 columns rows 82 and up
/// have none; here they are hit in columns above 128.
#[test]
fn strings_for_the_rows_of_the_fine_table_of_002() {
    let file = document_002_fine().encode();
    for (row, digits, used) in STRINGS_002_FINE {
        let string = string_for(&file, row, 24).unwrap().unwrap();
        let number = Natural::from_bits(&unpack(&string, 192));
        assert_eq!(number, Natural::from_hexadecimal(digits), "row {row}");
        assert_eq!(walk(&file, &string).unwrap().used, used);
    }
    assert_eq!(string_for(&file, 100, 24), Err(3));
    assert_eq!(string_for(&file, 99, 23), Err(13));
}

/// Section 5.2: 0 gives 0 and 10 gives 1, as in the look-up tables above. Row 2 is row 0 moved right
/// by four places, so that its first 1 is in column 4; the columns before have one each, of rows 0,
/// 1, 0 and 1, and leave 11110 for it.
#[test]
fn strings_for_the_rows_of_001() {
    let file = document_001().encode();
    for (row, bits) in [(0, "0"), (1, "10"), (2, "11110")] {
        let number = Natural::from_bits(&bits_of(&format!("{bits:0<128}")));
        assert_eq!(string_number(&file, row), Some(number));
    }
}

#[test]
fn program_of_002() {
    let program = translate(&document_002());
    assert_eq!(program.header.count, 23_411);
    assert_eq!(program.header.registers, 3 + 7 + 3 * 87);
}

#[test]
fn table_of_004() {
    let matrix = document_004();
    assert_eq!((matrix.rows, matrix.columns), (11, 80));
    assert_eq!(matrix.total(), Natural::power_of_two(80));
    assert_eq!(matrix.value(10), Natural::from(132));
    assert_eq!(
        matrix.value(0),
        Natural::from_decimal("689508964344405183681541")
    );
    let mut random = Random::new(4);
    for _ in 0..1_000 {
        assert!(walk_bits(&matrix, &random.bits(80)).row.is_some());
    }
    for bit in [0, 1] {
        assert!(walk_bits(&matrix, &[bit; 80]).row.is_some());
    }
}

/// Table 5 cut to 63 bits: 2^80 less the document's numbers, over 2^17 and rounded down, worked out
/// by other means.
const TABLE_004: [u64; 12] = [
    0,
    5_260_535_921_817_056_149,
    8_451_212_244_918_761_417,
    9_163_148_363_874_248_151,
    9_221_587_639_219_013_128,
    9_223_352_352_423_521_441,
    9_223_371_956_616_401_314,
    9_223_372_036_734_256_850,
    9_223_372_036_854_709_174,
    9_223_372_036_854_775_794,
    9_223_372_036_854_775_807,
    9_223_372_036_854_775_808,
];

/// The table is imported and exported again, no r misses, and each row is the document's over 2^17,
/// give or take less than one.
#[test]
fn cumulative_table_of_004() {
    let table = document_004_cut();
    assert_eq!(table, TABLE_004);
    let (whole, file) = (document_004(), import(&table, 63, usize::MAX).unwrap());
    assert_eq!(check(&file), Ok((11, 63)));
    assert_eq!(export(&file, 12).unwrap().table, table);
    assert_eq!(export(&whole.encode(), 12), Err(3));
    for (v, pair) in table.windows(2).enumerate() {
        let (row, exact) = (Natural::from(pair[1] - pair[0]), whole.value(v));
        let (scaled, unit) = (row.shifted_up(17), Natural::power_of_two(17));
        assert!(exact < scaled.plus(&unit) && scaled < exact.plus(&unit));
        for r in [pair[0] + 1, pair[1]] {
            assert_eq!(lookup(&table, 63, r), Ok(Some(v)));
        }
    }
    let last = sums(&whole).pop();
    assert_eq!(last, Some(Natural::power_of_two(80)));
}

/// 1,000 random r, and as many strings of the same matrix: each sample comes as often as its row
/// says, give or take six times the deviation.
#[test]
fn samples_of_the_cumulative_table_of_004() {
    let mut random = Random::new(5);
    let rows = |v: usize| (TABLE_004[v + 1] - TABLE_004[v]) as f64 / (1u64 << 63) as f64;
    let matrix = decode(&import(&TABLE_004, 63, 96).unwrap()).unwrap();
    let (mut by_lookup, mut by_walk) = ([0; 11], [0; 11]);
    for _ in 0..1_000 {
        let r = 1 + (random.word() >> 1);
        by_lookup[lookup(&TABLE_004, 63, r).unwrap().unwrap()] += 1;
        by_walk[walk_bits(&matrix, &random.bits(63)).row.unwrap()] += 1;
    }
    for (v, often) in by_lookup.into_iter().chain(by_walk).enumerate() {
        let (mean, often) = (1_000.0 * rows(v % 11), f64::from(often));
        assert!(
            (often - mean).abs() <= 6.0 * mean.sqrt() + 1.0,
            "{v}: {often}"
        );
    }
}

/// Rows of document 002's table, worked out with 120 decimal digits by other means.
const ROWS_002: [(usize, &str); 13] = [
    (0, "10977b8602122956de82d2ef3a925ade"),
    (1, "20bf995d628b4af6188172aa1382a4d6"),
    (2, "1f7a2f4b382ff80fca8ef0036a3cc9c3"),
    (3, "1d77a760df2762cf85122049f583a54d"),
    (38, "2f3689be2a219f1c18f26c192"),
    (39, "11174c6fe30b0b946ac894dfe"),
    (40, "60697bd1627a9e900cc4efb8"),
    (56, "28bd32f2e58ee941c"),
    (57, "92babee7792b6a75"),
    (80, "9"),
    (81, "1"),
    (82, "0"),
    (86, "0"),
];

/// The hash of the whole file of that table, by the same means.
const HASH_002: u64 = 0x2f30_f98f_c592_58d6;

/// The strings for some rows of that table, by the same means. Of the first eight this can be seen:
/// row 1 alone is at least 1/8, and is hit by 000; of four bits 0010 to 1000 are then left for the
/// rows from 1/16 to 1/8, which are 7 to 2, the last first, and 0.
const STRINGS_002: [(usize, &str); 13] = [
    (1, "00000000000000000000000000000000"),
    (7, "20000000000000000000000000000000"),
    (6, "30000000000000000000000000000000"),
    (5, "40000000000000000000000000000000"),
    (4, "50000000000000000000000000000000"),
    (3, "60000000000000000000000000000000"),
    (2, "70000000000000000000000000000000"),
    (0, "80000000000000000000000000000000"),
    (39, "ffffffd4000000000000000000000000"),
    (40, "fffffff5800000000000000000000000"),
    (56, "ffffffffffffff8c0000000000000000"),
    (80, "fffffffffffffffffffffffffffffd70"),
    (81, "ffffffffffffffffffffffffffffffb0"),
];

/// Rows of that curve with 192 columns, worked out with 160 and with 260 decimal digits by other
/// means.
const ROWS_002_FINE: [(usize, &str); 16] = [
    (0, "10977b8602122956de82d2ef3a925ade4ad6b98a505989ec"),
    (1, "20bf995d628b4af6188172aa1382a4d6c5c90f486efe283c"),
    (2, "1f7a2f4b382ff80fca8ef0036a3cc9c3421a1a1e3fee05b1"),
    (3, "1d77a760df2762cf85122049f583a54dd7e63bc6aeb4abe7"),
    (38, "2f3689be2a219f1c18f26c192e77042170f145c59"),
    (39, "11174c6fe30b0b946ac894dfe6ecebe4cfa5c42b5"),
    (40, "60697bd1627a9e900cc4efb80063b6ae86887da9"),
    (56, "28bd32f2e58ee941c3352b389a99e8195"),
    (57, "92babee7792b6a755e6a1b36de79f9fe"),
    (81, "11a85f366785b973a"),
    (82, "20e063d58b61a4f8"),
    (86, "12f7043e58e0f"),
    (87, "1ef1f039b32b"),
    (97, "3c9"),
    (98, "49"),
    (99, "5"),
];

/// The hash of the whole file of that table, by the same means.
const HASH_002_FINE: u64 = 0xd655_c447_465c_58e3;

/// The strings for some of its rows, and the columns that they use, by the same means.
const STRINGS_002_FINE: [(usize, &str, usize); 11] = [
    (1, "000000000000000000000000000000000000000000000000", 3),
    (7, "200000000000000000000000000000000000000000000000", 4),
    (0, "800000000000000000000000000000000000000000000000", 4),
    (39, "ffffffd40000000000000000000000000000000000000000", 32),
    (40, "fffffff58000000000000000000000000000000000000000", 34),
    (56, "ffffffffffffff8c00000000000000000000000000000000", 63),
    (81, "ffffffffffffffffffffffffffffffb00000000000000000", 128),
    (82, "fffffffffffffffffffffffffffffff68000000000000000", 131),
    (97, "ffffffffffffffffffffffffffffffffffffffffffff4000", 183),
    (98, "ffffffffffffffffffffffffffffffffffffffffffffe600", 186),
    (99, "fffffffffffffffffffffffffffffffffffffffffffffe90", 190),
];
