//! What 01 and 02 say of all matrices and programs, tried on all small ones and on random ones of
//! all sizes.

use reference::compiler::{compile, translate};
use reference::cumulative::{export, import, lookup, table_of};
use reference::draws::{draw, draw_signed};
use reference::extremes::{longest_program, longest_program_of};
use reference::lanes::{samples, signed_samples, slice};
use reference::lent;
use reference::machine::{resume, start};
use reference::matrix::{check, decode, read, write, Matrix};
use reference::natural::Natural;
use reference::program::{self, Operation};
use reference::random::{self, Random};
use reference::record::{pack, unpack};
use reference::tables::{document_001, document_002, document_002_fine, document_004};
use reference::walk::{place_after, spent, used_by_all, walk, walk_bits, Place};
use reference::wanted::string_for;
use reference::weights::build;
use reference::wide::{combine, combined_misses, result_counts, signed_counts, Counts};
use std::collections::BTreeMap;

/// Rows and columns of at most so many entries.
fn small_sizes(most: usize) -> impl Iterator<Item = (usize, usize)> {
    let sizes = (1..=12).flat_map(|rows| (1..=6).map(move |columns| (rows, columns)));
    sizes.filter(move |(rows, columns)| rows * columns <= most)
}

/// Every matrix of these sizes, accepted or not.
fn all_matrices(rows: usize, columns: usize) -> impl Iterator<Item = Matrix> {
    let size = rows * columns;
    (0..1u32 << size).map(move |number| Matrix {
        rows,
        columns,
        entries: (0..size).map(|i| (number >> i & 1) as u8).collect(),
    })
}

/// Every string of n bits.
fn all_strings(columns: usize) -> impl Iterator<Item = Vec<u8>> {
    (0..1u64 << columns).map(move |number| Natural::from(number).bits(columns))
}

/// What a lane of the output words spells where its bit of output 0 is set, whatever the rows are: what
/// 01 says that a program gives.
fn spelled(outputs: &[u64], lane: usize) -> Option<usize> {
    let bit = |word: &u64| (word >> lane & 1) as usize;
    let value_bits = outputs[1..].iter().rev();
    let number = value_bits.fold(0, |number, word| 2 * number + bit(word));
    (bit(&outputs[0]) == 1).then_some(number)
}

/// What the compiled program gives in one lane that carries the string, with anything in the
/// others.
fn given(random: &mut Random, program: &[u8], bits: &[u8]) -> Option<usize> {
    let lane = random.below(64);
    given_in(random, lane, program, bits)
}

/// The same in this lane.
fn given_in(random: &mut Random, lane: usize, program: &[u8], bits: &[u8]) -> Option<usize> {
    let words: Vec<u64> = bits
        .iter()
        .map(|&bit| random.word() & !(1 << lane) | u64::from(bit) << lane)
        .collect();
    let run = start(program, &words, 1_024, 8, u32::MAX).unwrap();
    assert!(run.finished);
    spelled(&run.outputs, lane)
}

/// Demands 2 and 3 on one matrix: the program gives what the walk gives, each row as often as its
/// number says.
fn counts_are_right(random: &mut Random, matrix: &Matrix) {
    let program = compile(&matrix.encode(), usize::MAX).unwrap();
    let mut hits = vec![0u64; matrix.rows];
    let mut misses = 0u64;
    for bits in all_strings(matrix.columns) {
        let sample = given(random, &program, &bits);
        assert_eq!(sample, walk_bits(matrix, &bits).row);
        match sample {
            Some(row) => hits[row] += 1,
            None => misses += 1,
        }
    }
    for (v, &hit) in hits.iter().enumerate() {
        assert_eq!(Natural::from(hit), matrix.value(v));
    }
    assert_eq!(Natural::from(misses), matrix.misses());
}

#[test]
fn all_small_matrices() {
    let mut random = Random::new(10);
    for (rows, columns) in small_sizes(12) {
        for matrix in all_matrices(rows, columns) {
            let total: u32 = (0..rows)
                .map(|v| {
                    matrix
                        .row(v)
                        .iter()
                        .fold(0, |sum, &bit| 2 * sum + u32::from(bit))
                })
                .sum();
            if total <= 1 << columns {
                assert_eq!(check(&matrix.encode()), Ok((rows, columns)));
                if rows * columns <= 9 {
                    counts_are_right(&mut random, &matrix);
                }
            } else {
                assert_eq!(check(&matrix.encode()), Err(6));
            }
        }
    }
}

#[test]
fn counts_of_random_matrices() {
    let mut random = Random::new(11);
    for _ in 0..60 {
        let (rows, columns) = (random.between(1, 40), random.between(1, 7));
        let matrix = random::matrix(&mut random, rows, columns);
        counts_are_right(&mut random, &matrix);
    }
}

/// 02, order 1, on one matrix, string by string: a walk uses 1 to n columns, hits in the last of
/// these or nowhere, and gives the same whatever bits follow. Answers what all walks use together.
fn uses_are_right(matrix: &Matrix) -> usize {
    let n = matrix.columns;
    let mut hits = vec![0; n];
    let mut all = 0;
    for bits in all_strings(n) {
        let walked = walk_bits(matrix, &bits);
        let (row, used) = (walked.row, walked.used);
        assert!((1..=n).contains(&used));
        let before = place_after(matrix, &bits[..used - 1]);
        assert!(matches!(before, Place::Left(_)));
        match place_after(matrix, &bits[..used]) {
            Place::Hit { row: met, column } => {
                assert_eq!((row, used), (Some(met), column + 1));
                hits[column] += 1;
            }
            Place::Left(_) => assert_eq!((row, used), (None, n)),
        }
        for rest in all_strings(n - used) {
            let other = [&bits[..used], &rest].concat();
            assert_eq!(walk_bits(matrix, &other), walked);
        }
        all += used;
    }
    for (c, &hit) in hits.iter().enumerate() {
        let ones = (0..matrix.rows).filter(|&v| matrix.bit(v, c)).count();
        assert_eq!(hit, ones << (n - 1 - c));
    }
    all
}

/// The 64 lanes carry each string of up to 6 bits equally often.
#[test]
fn columns_used_on_all_small_matrices() {
    for (rows, columns) in small_sizes(9) {
        let strings: Vec<u8> = (0..64u8).map(|lane| lane << (8 - columns)).collect();
        for matrix in all_matrices(rows, columns).filter(Matrix::is_accepted) {
            let all = uses_are_right(&matrix);
            assert_eq!(used_by_all(&matrix), Natural::from(all as u64));
            let total = all << (6 - columns);
            assert!((64..=64 * columns).contains(&total));
            assert_eq!(spent(&matrix.encode(), &strings), Ok(total));
        }
    }
}

#[test]
fn spent_is_the_sum_of_the_walks() {
    let mut random = Random::new(20);
    for _ in 0..100 {
        let matrix = random::any_matrix(&mut random);
        let (columns, file) = (matrix.columns, matrix.encode());
        let strings = random::strings(&mut random, &matrix);
        let each = strings.chunks(columns.div_ceil(8));
        let total = each.map(|string| walk(&file, string).unwrap().used).sum();
        assert!((64..=64 * columns).contains(&total));
        assert_eq!(spent(&file, &strings), Ok(total));
        let longer = [&strings[..], &[0xff; 3]].concat();
        assert_eq!(spent(&file, &longer), Ok(total));
    }
}

/// 01, "Translation": register 2 is H, the lanes that have hit. A lane that has not when a column's
/// INPUT comes uses that column.
#[test]
fn programs_serve_a_lane_where_its_walk_hits() {
    let mut random = Random::new(21);
    for _ in 0..40 {
        let (rows, columns) = (random.between(1, 20), random.between(1, 30));
        let matrix = random::matrix(&mut random, rows, columns);
        let program = translate(&matrix);
        let file = program.encode();
        let strings = random::strings(&mut random, &matrix);
        let words = slice(columns, &strings, columns).unwrap();
        let mut unserved = 0;
        for (position, instruction) in (0..).zip(&program.instructions) {
            if instruction.form.operation == Operation::Input {
                let run = start(&file, &words, 1_024, 8, position).unwrap();
                unserved += run.registers[2].count_zeros() as usize;
            }
        }
        assert_eq!(spent(&matrix.encode(), &strings), Ok(unserved));
    }
}

/// What the walk gives, as a signed sample.
fn signed(row: Option<usize>, negated: bool) -> i16 {
    match row {
        None => 32_767,
        Some(row) if negated => -(row as i16),
        Some(row) => row as i16,
    }
}

/// The signed samples of all strings of a table, each with both signs.
fn signed_walks(table: &Matrix) -> Vec<i16> {
    let both = |bits: Vec<u8>| {
        let row = walk_bits(table, &bits).row;
        [signed(row, false), signed(row, true)]
    };
    all_strings(table.columns).flat_map(both).collect()
}

/// How often each number is among these.
fn counts<T: Ord + Copy + Into<i64>>(numbers: &[T]) -> Counts {
    let mut counts: BTreeMap<T, u64> = BTreeMap::new();
    for &number in numbers {
        *counts.entry(number).or_default() += 1;
    }
    let each = counts.into_iter();
    each.map(|(number, times)| (number.into(), Natural::from(times)))
        .collect()
}

/// The results of every choice of four signed samples, one of each of the lists, 64 at a time.
fn results_of_all(each: &[Vec<i16>; 4], first: u32, second: u32) -> Vec<i32> {
    let mut lists = [(); 4].map(|()| Vec::new());
    for choice in 0..each.iter().map(Vec::len).product() {
        let mut rest: usize = choice;
        for (list, samples) in lists.iter_mut().zip(each) {
            list.push(samples[rest % samples.len()]);
            rest /= samples.len();
        }
    }
    let [x1, x2, x3, x4] = lists.each_ref().map(|list| list.chunks(64));
    let batches = x1.zip(x2).zip(x3.zip(x4));
    batches
        .flat_map(|((x1, x2), (x3, x4))| combine(x1, x2, x3, x4, first, second, 64).unwrap())
        .collect()
}

/// For every result the sum, over the four samples that give it, of the products of their counts.
fn sums_of_products(tables: [&Matrix; 4], first: i64, second: i64) -> Counts {
    let mut sums = Counts::new();
    let [c1, c2, c3, c4] = tables.map(signed_counts);
    for (x1, n1) in &c1 {
        for (x2, n2) in &c2 {
            for (x3, n3) in &c3 {
                for (x4, n4) in &c4 {
                    let result = (x1 + first * x2) + second * (x3 + first * x4);
                    let product = n1.times(n2).times(n3).times(n4);
                    let sum = sums.entry(result).or_default();
                    *sum = sum.plus(&product);
                }
            }
        }
    }
    sums
}

/// 02, order 2, on four tables, over all their strings and signs: each result comes as often as the
/// sum of the products of the parts' counts says, and all other choices miss. Answers how many do.
fn results_are_right(tables: [&Matrix; 4], first: u32, second: u32) -> Natural {
    let each = tables.map(signed_walks);
    for (table, samples) in tables.iter().zip(&each) {
        let mut counted = counts(samples);
        let missed = counted.remove(&32_767).unwrap_or_default();
        assert_eq!(counted, signed_counts(table));
        assert_eq!(missed, table.misses().shifted_up(1));
    }
    let mut counted = counts(&results_of_all(&each, first, second));
    let missed = counted.remove(&2_147_483_647).unwrap_or_default();
    let sums = sums_of_products(tables, i64::from(first), i64::from(second));
    assert_eq!(counted, sums);
    assert_eq!(result_counts(tables, first, second), sums);
    assert_eq!(missed, combined_misses(tables));
    missed
}

/// With equal multipliers, or with 1, many choices give the same result; with others few do.
const MULTIPLIERS: [(u32, u32); 5] = [(3, 11), (1, 1), (2, 2), (1, 1_000), (1_000, 1_000)];

#[test]
fn results_come_as_often_as_products_of_counts() {
    let full = Matrix::from_texts(&["10", "01", "01"]);
    let thirds = Matrix::from_texts(&["01", "01", "01"]);
    let late = Matrix::from_texts(&["001", "000", "010", "011"]);
    let (zero, coin) = (Matrix::from_texts(&["1"]), Matrix::from_texts(&["1", "1"]));
    let none = Matrix::from_texts(&["0"]);
    for (first, second) in MULTIPLIERS {
        assert!(results_are_right([&full; 4], first, second).is_zero());
        // 8^4 choices, of which 6^4 hit.
        let missed = Natural::from(4_096 - 1_296);
        assert_eq!(results_are_right([&thirds; 4], first, second), missed);
        for tables in [
            [&late, &zero, &coin, &thirds],
            [&coin, &thirds, &zero, &late],
        ] {
            // 16 × 4 × 4 × 8 choices, of which 12 × 2 × 4 × 6 hit.
            let missed = Natural::from(2_048 - 576);
            assert_eq!(results_are_right(tables, first, second), missed);
        }
        // 4 × 8^3 choices, and none hits.
        let missed = results_are_right([&full, &none, &full, &full], first, second);
        assert_eq!(missed, Natural::from(2_048));
    }
}

#[test]
fn results_of_random_tables_come_as_often_as_products_of_counts() {
    let mut random = Random::new(22);
    for case in 0..60 {
        let columns = random.pick(&[[2, 2, 2, 2], [3, 1, 2, 2], [1, 3, 1, 3], [1, 1, 4, 1]]);
        let tables = columns.map(|columns| {
            let rows = random.between(1, 6);
            random::matrix(&mut random, rows, columns)
        });
        let (first, second) = MULTIPLIERS[case % 5];
        results_are_right(tables.each_ref(), first, second);
    }
}

/// Batches that compiled programs draw, and lists of any signed samples.
#[test]
fn results_are_the_formula_or_the_miss() {
    let mut random = Random::new(23);
    let (mut values, mut misses) = (0, 0);
    for case in 0..200 {
        let lists = [(); 4].map(|()| match case % 4 {
            0 => drawn_list(&mut random),
            _ => random::signed_samples(&mut random, 64),
        });
        let multiplier = |random: &mut Random| random.pick(&[1, 2, 3, 11, 500, 999, 1_000]);
        let (first, second) = (multiplier(&mut random), multiplier(&mut random));
        let [x1, x2, x3, x4] = &lists;
        let results = combine(x1, x2, x3, x4, first, second, 64).unwrap();
        let (first, second) = (first as i32, second as i32);
        for (lane, &result) in results.iter().enumerate() {
            let entries = lists.each_ref().map(|list| i32::from(list[lane]));
            if entries.contains(&32_767) {
                assert_eq!(result, 2_147_483_647);
                misses += 1;
            } else {
                let [x1, x2, x3, x4] = entries;
                assert_eq!(result, (x1 + first * x2) + second * (x3 + first * x4));
                assert!(result.abs() <= 127_254_127);
                values += 1;
            }
        }
    }
    assert!(values > 2_000 && misses > 2_000, "{values} and {misses}");
}

/// 64 signed samples of a random table.
fn drawn_list(random: &mut Random) -> Vec<i16> {
    let matrix = random::any_matrix(random);
    let program = translate(&matrix).encode();
    let strings = random::packed_strings(random, matrix.columns, 64);
    draw_signed(&program, &strings, random.word(), 64).unwrap()
}

/// 02, order 4: whether a list of numbers is a table, by the words there, and where not, the
/// number.
fn table_refusal(table: &[u64], columns: usize) -> Option<u32> {
    let all = 1u64 << columns;
    let falls = (1..table.len()).any(|v| table[v] < table[v - 1]);
    let last = table[table.len() - 1];
    if table[0] != 0 || falls || last > all {
        return Some(15);
    }
    let whole = (1..table.len()).any(|v| table[v] == all && table[v - 1] == 0);
    whole.then_some(16)
}

/// The samples s with T[s] < r and r ≤ T[s + 1], of all that there are.
fn samples_between(table: &[u64], r: u64) -> Vec<usize> {
    let between = |&s: &usize| table[s] < r && r <= table[s + 1];
    (0..table.len() - 1).filter(between).collect()
}

/// 02, order 4, on one table, over all r and all strings: what is looked up is the only sample
/// between whose numbers r lies, each comes from as many r as the compiled program has strings for
/// it, and as many r miss as strings do.
fn lookups_are_right(random: &mut Random, table: &[u64], columns: usize, file: &[u8]) {
    let program = compile(file, usize::MAX).unwrap();
    let (mut of_r, mut of_strings) = (BTreeMap::new(), BTreeMap::new());
    for r in 1..=1 << columns {
        let sample = lookup(table, columns, r).unwrap();
        let found: Vec<usize> = sample.into_iter().collect();
        assert_eq!(found, samples_between(table, r));
        assert_eq!(sample.is_none(), r > table[table.len() - 1]);
        *of_r.entry(sample).or_insert(0) += 1;
    }
    for bits in all_strings(columns) {
        let sample = given(random, &program, &bits);
        *of_strings.entry(sample).or_insert(0) += 1;
    }
    assert_eq!(of_r, of_strings);
}

/// Every list of so many numbers from 0 to `most`.
fn all_lists(length: usize, most: u64) -> impl Iterator<Item = Vec<u64>> {
    let base = most + 1;
    let digit = move |number: u64, v: usize| number / base.pow(v as u32) % base;
    (0..base.pow(length as u32)).map(move |number| (0..length).map(|v| digit(number, v)).collect())
}

/// All lists of numbers to 2^n + 1: of up to five with one column, four with two, three with three.
/// As many as can be worked out are tables, and refused with 15 and with 16.
#[test]
fn all_small_tables() {
    let mut random = Random::new(24);
    let mut met = BTreeMap::new();
    for (most_numbers, columns) in [(5, 1), (4, 2), (3, 3)] {
        for numbers in 2..=most_numbers {
            for table in all_lists(numbers, (1 << columns) + 1) {
                let (answer, refusal) = (
                    import(&table, columns, usize::MAX),
                    table_refusal(&table, columns),
                );
                assert_eq!(answer.as_ref().err(), refusal.as_ref());
                assert_eq!(lookup(&table, columns, 1).err(), refusal);
                *met.entry(refusal).or_insert(0) += 1;
                if let Ok(file) = answer {
                    assert_eq!(check(&file), Ok((numbers - 1, columns)));
                    assert_eq!(export(&file, numbers).unwrap().table, table);
                    lookups_are_right(&mut random, &table, columns, &file);
                }
            }
        }
    }
    assert_eq!(met, ALL_SMALL_TABLES.into());
}

/// Of m rows there are C(2^n + m, m) tables that do not fall and do not pass 2^n, and of these m
/// have a difference of 2^n. So of 1 to 4 rows of one column, 1 to 3 of two, 1 and 2 of three, in
/// all (3 + 6 + 10 + 15) + (5 + 15 + 35) + (9 + 45) = 143, of which 10 + 6 + 3 have one.
const ALL_SMALL_TABLES: [(Option<u32>, usize); 3] = [
    (None, 143 - 19),
    (
        Some(15),
        16 + 64 + 256 + 1_024 + 36 + 216 + 1_296 + 100 + 1_000 - 143,
    ),
    (Some(16), 19),
];

/// The table of every small matrix: entry v is the sum of the rows before v.
#[test]
fn tables_of_all_small_matrices() {
    for (rows, columns) in small_sizes(12) {
        for matrix in all_matrices(rows, columns).filter(Matrix::is_accepted) {
            let file = matrix.encode();
            let exported = export(&file, rows + 1).unwrap();
            assert_eq!(exported.columns, columns);
            let mut sum = 0;
            for (v, &number) in exported.table.iter().enumerate() {
                assert_eq!(number, sum);
                if v < rows {
                    let bits = matrix.row(v).iter();
                    sum += bits.fold(0, |value, &bit| 2 * value + u64::from(bit));
                }
            }
            assert_eq!(import(&exported.table, columns, file.len()), Ok(file));
        }
    }
}

/// Random matrices of all rows and of 1 to 63 columns: their tables import as the same file, and
/// where a row is not 0 the first and the last r of its numbers, and any between, give its sample.
#[test]
fn random_tables_there_and_back() {
    let mut random = Random::new(25);
    let (mut hits, mut misses) = (0, 0);
    for case in 0..600 {
        let (numbers, columns) = random::table_sizes(&mut random);
        let columns = if case < 63 { case + 1 } else { columns };
        let matrix = random::matrix(&mut random, numbers - 1, columns);
        let file = matrix.encode();
        let exported = export(&file, numbers).unwrap();
        let table = exported.table;
        assert_eq!((exported.columns, table.len()), (columns, numbers));
        assert_eq!(import(&table, columns, file.len()).as_ref(), Ok(&file));
        for (v, pair) in table.windows(2).enumerate() {
            assert_eq!(Natural::from(pair[1] - pair[0]), matrix.value(v));
            if pair[0] < pair[1] {
                let any = pair[0] + 1 + random.word() % (pair[1] - pair[0]);
                for r in [pair[0] + 1, any, pair[1]] {
                    assert_eq!(lookup(&table, columns, r), Ok(Some(v)));
                    hits += 1;
                }
            }
        }
        let (last, all) = (table[numbers - 1], 1 << columns);
        if last < all {
            for r in [last + 1, all] {
                assert_eq!(lookup(&table, columns, r), Ok(None));
                misses += 1;
            }
        }
    }
    assert!(hits > 10_000 && misses > 300, "{hits} and {misses}");
}

/// Tables of up to 40 rows and 7 columns, over all r and all strings.
#[test]
fn lookups_of_random_tables() {
    let mut random = Random::new(26);
    for _ in 0..60 {
        let (rows, columns) = (random.between(1, 40), random.between(1, 7));
        let matrix = random::matrix(&mut random, rows, columns);
        let (table, file) = (table_of(&matrix), matrix.encode());
        lookups_are_right(&mut random, &table, columns, &file);
    }
}

/// Tables of all sizes with faults, and numbers to look up within and without, against the rules as
/// they stand.
#[test]
fn tables_with_faults() {
    let mut random = Random::new(27);
    let mut met = BTreeMap::new();
    for _ in 0..3_000 {
        let (numbers, columns) = random::table_sizes(&mut random);
        let mut table = random::table(&mut random, numbers, columns);
        for _ in 0..random.below(3) {
            random::table_fault(&mut random, &mut table, columns);
        }
        let refusal = table_refusal(&table, columns);
        let answer = import(&table, columns, usize::MAX);
        assert_eq!(answer.err(), refusal);
        let r = random::within(&mut random, &table, columns);
        assert_eq!(lookup(&table, columns, r).err(), refusal);
        let r = random::without(&mut random, columns);
        assert_eq!(lookup(&table, columns, r), Err(3));
        *met.entry(refusal).or_insert(0) += 1;
    }
    assert!(
        met.len() == 3 && met.values().all(|&often| often > 300),
        "{met:?}"
    );
}

/// 02, order 7, on one matrix, by a search over all its strings, of which the smallest come first:
/// the string for each row, and none where p_v is 0 and nowhere else. Answers how many have none.
fn strings_are_right(matrix: &Matrix) -> u64 {
    let mut searched = vec![None; matrix.rows];
    for bits in all_strings(matrix.columns) {
        if let Some(row) = walk_bits(matrix, &bits).row {
            searched[row].get_or_insert(pack(&bits));
        }
    }
    let (file, room) = (matrix.encode(), matrix.columns.div_ceil(8));
    let mut none = 0;
    for (row, string) in searched.into_iter().enumerate() {
        let found = string_for(&file, row, room).unwrap();
        assert_eq!(found, string, "row {row} of {matrix:?}");
        assert_eq!(found.is_none(), matrix.value(row).is_zero());
        none += u64::from(found.is_none());
    }
    none
}

/// How many accepted matrices there are: of the C(2^n + m, m) choices of m numbers that add up to at
/// most 2^n, those but the m in which one of them is 2^n.
fn accepted(rows: u64, columns: usize) -> u64 {
    let all = 1 << columns;
    let choices = (1..=rows).fold(1, |choices, i| choices * (all + i) / i);
    choices - rows
}

/// In all accepted matrices of a size, a row is all zero as often as there are accepted ones of the
/// other rows.
#[test]
fn strings_for_the_rows_of_all_small_matrices() {
    for (rows, columns) in small_sizes(12) {
        let (mut matrices, mut none) = (0, 0);
        for matrix in all_matrices(rows, columns).filter(Matrix::is_accepted) {
            none += strings_are_right(&matrix);
            matrices += 1;
        }
        let m = rows as u64;
        assert_eq!(matrices, accepted(m, columns));
        assert_eq!(none, m * accepted(m - 1, columns));
    }
}

/// Up to 40 rows and 10 columns, some of which add up to 2^n.
#[test]
fn strings_for_the_rows_of_random_matrices() {
    let mut random = Random::new(32);
    let (mut none, mut whole) = (0, 0);
    for _ in 0..300 {
        let (rows, columns) = (random.between(1, 40), random.between(1, 10));
        let matrix = random::matrix(&mut random, rows, columns);
        none += strings_are_right(&matrix);
        whole += usize::from(matrix.misses().is_zero());
    }
    assert!(none > 1_000 && whole > 60, "{none} and {whole}");
}

/// The number of the smallest string for a row, by sums: from 0 up the strings hit column after
/// column, and in a column the rows from the last down, 2^(n-1-c) strings each 1 of column c.
fn smallest_by_sums(matrix: &Matrix, row: usize) -> Option<Natural> {
    let first = matrix.row(row).iter().position(|&bit| bit == 1)?;
    let strings_of = |column: usize, from: usize| {
        let ones = (from..matrix.rows).filter(|&v| matrix.bit(v, column));
        Natural::from(ones.count() as u64).shifted_up(matrix.columns - 1 - column)
    };
    let before = strings_of(first, row + 1);
    let sum = |sum: Natural, column: usize| sum.plus(&strings_of(column, 0));
    Some((0..first).fold(before, sum))
}

/// 02, order 7, on a matrix with too many strings for a search: the walk hits the row on the string,
/// in the first column in which it is set, and on the number one smaller it does not; the string is
/// the one that the sums say, and where these say none there is none. Answers how many have none.
fn strings_by_sums_are_right(matrix: &Matrix) -> usize {
    let (n, file) = (matrix.columns, matrix.encode());
    let mut none = 0;
    for row in 0..matrix.rows {
        let found = string_for(&file, row, n.div_ceil(8)).unwrap();
        let number = found
            .as_ref()
            .map(|string| Natural::from_bits(&unpack(string, n)));
        assert_eq!(number, smallest_by_sums(matrix, row));
        assert_eq!(found.is_none(), matrix.value(row).is_zero());
        let (Some(string), Some(mut number)) = (found, number) else {
            none += 1;
            continue;
        };
        // The walk refuses a spare bit that is set.
        let walked = walk(&file, &string).unwrap();
        assert_eq!(walked.row, Some(row));
        assert!(matrix.bit(row, walked.used - 1));
        assert!(!matrix.row(row)[..walked.used - 1].contains(&1));
        if !number.is_zero() {
            number.decrease();
            assert_ne!(walk_bits(matrix, &number.bits(n)).row, Some(row));
        }
    }
    none
}

/// The tables of the source documents, the longest program's matrix, and matrices of the most rows
/// and columns. Of the table of 002 rows 82 to 86 have none.
#[test]
fn strings_for_the_rows_of_large_matrices() {
    assert_eq!(strings_by_sums_are_right(&document_002()), 5);
    for matrix in [
        document_001(),
        document_002_fine(),
        document_004(),
        longest_program(),
    ] {
        assert_eq!(strings_by_sums_are_right(&matrix), 0);
    }
    let mut random = Random::new(33);
    for either in [false, true] {
        for columns in [128, 192] {
            let parts = random::matrix_of_parts(&mut random, 128, columns, either);
            strings_by_sums_are_right(&parts);
            let by_columns = random::matrix_by_columns(&mut random, 128, columns, either);
            strings_by_sums_are_right(&by_columns);
        }
    }
}

#[test]
fn strings_for_the_rows_of_any_matrices() {
    let mut random = Random::new(34);
    let (mut rows, mut none) = (0, 0);
    for _ in 0..200 {
        let matrix = random::any_matrix(&mut random);
        rows += matrix.rows;
        none += strings_by_sums_are_right(&matrix);
    }
    assert!(none > 1_000 && rows - none > 1_000, "{none} of {rows}");
}

/// The compiled program gives the row in every lane that carries its string, whatever the others
/// carry.
#[test]
fn programs_give_the_wanted_row_in_every_lane() {
    let mut random = Random::new(35);
    let mut tried = 0;
    for _ in 0..40 {
        let (rows, columns) = (random.between(1, 12), random.between(1, 20));
        let matrix = random::matrix(&mut random, rows, columns);
        let file = matrix.encode();
        let program = compile(&file, usize::MAX).unwrap();
        for row in 0..rows {
            let Some(string) = string_for(&file, row, usize::MAX).unwrap() else {
                continue;
            };
            let bits = unpack(&string, columns);
            for lane in 0..64 {
                assert_eq!(given_in(&mut random, lane, &program, &bits), Some(row));
                tried += 1;
            }
        }
    }
    assert!(tried > 64 * 100, "{tried}");
}

#[test]
fn files_are_read_and_written_alike() {
    let mut random = Random::new(12);
    for _ in 0..300 {
        let matrix = random::any_matrix(&mut random);
        let (rows, columns, file) = (matrix.rows, matrix.columns, matrix.encode());
        assert_eq!(decode(&file), Ok(matrix.clone()));
        assert_eq!(read(&file, rows * columns), Ok(matrix.clone()));
        assert_eq!(write(rows, columns, &matrix.entries, file.len()), Ok(file));
    }
}

#[test]
fn a_bit_more_than_all_is_refused() {
    let mut random = Random::new(13);
    let mut tried = 0;
    for _ in 0..200 {
        let (rows, columns) = random::sizes(&mut random);
        if let Some(matrix) = random::matrix_just_above(&mut random, rows, columns) {
            let above = Natural::power_of_two(columns).plus(&Natural::from(1));
            assert_eq!(matrix.total(), above);
            assert_eq!(check(&matrix.encode()), Err(6));
            tried += 1;
        }
    }
    assert!(tried > 50);
}

/// Another test of acceptance: open nodes of the tree, column by column, with no cap.
fn tree_has_room(matrix: &Matrix) -> bool {
    let mut open = Natural::from(1);
    for column in 0..matrix.columns {
        open.double_and_add(0);
        for _ in (0..matrix.rows).filter(|&v| matrix.bit(v, column)) {
            if open.is_zero() {
                return false;
            }
            open.decrease();
        }
    }
    true
}

#[test]
fn acceptance_is_room_in_the_tree() {
    let mut random = Random::new(14);
    for _ in 0..500 {
        let mut matrix = random::any_matrix(&mut random);
        for _ in 0..random.below(4) {
            let place = random.below(matrix.entries.len());
            matrix.entries[place] ^= 1;
        }
        assert_eq!(matrix.is_accepted(), tree_has_room(&matrix));
    }
}

/// The weights from which the rows are built, as 01 and 02 have it: w_v, and for signed use w_0 and
/// 2 × w_v for every other. S as these papers have it is then their sum.
fn counted(weights: &[u32], signed: bool) -> Vec<u64> {
    let twice = |v: usize| signed && v > 0;
    let each = weights.iter().enumerate();
    each.map(|(v, &weight)| u64::from(weight) << u32::from(twice(v)))
        .collect()
}

/// Every use of some lists of all sizes.
fn each_build(seed: u64, lists: usize, mut visit: impl FnMut(&[u32], usize, bool)) {
    let mut random = Random::new(seed);
    for _ in 0..lists {
        let (number, columns) = random::sizes(&mut random);
        for weights in [
            random::weights(&mut random, number),
            random::distance_weights(&mut random, number),
        ] {
            visit(&weights, columns, false);
            visit(&weights, columns, true);
        }
    }
}

#[test]
fn rows_from_weights_are_the_largest() {
    each_build(15, 200, |weights, columns, signed| {
        let answer = build(weights, columns, signed, usize::MAX);
        let counted = counted(weights, signed);
        let sum = Natural::from(counted.iter().sum::<u64>());
        if sum.is_zero() {
            assert_eq!(answer, Err(11));
            return;
        }
        let matrix = decode(&answer.unwrap()).unwrap();
        assert_eq!((matrix.rows, matrix.columns), (weights.len(), columns));
        let largest = Natural::power_of_two(columns).minus(&Natural::from(1));
        for (v, &weight) in counted.iter().enumerate() {
            let bound = Natural::from(weight).shifted_up(columns);
            let row = matrix.value(v);
            let next = row.plus(&Natural::from(1));
            assert!(row.times(&sum) <= bound);
            assert!(row == largest || next.times(&sum) > bound);
        }
    });
}

/// "Plain lists build as before": row v is 2^n × w_v / S, cut to a whole number and to n bits.
#[test]
fn plain_lists_build_as_before() {
    let mut built = 0;
    each_build(29, 100, |weights, columns, signed| {
        let sum: u64 = weights.iter().map(|&weight| u64::from(weight)).sum();
        if signed || sum == 0 {
            return;
        }
        let largest = Natural::power_of_two(columns).minus(&Natural::from(1));
        let row = |&weight: &u32| {
            let scaled = Natural::from(u64::from(weight)).shifted_up(columns);
            scaled.divided_by(&Natural::from(sum)).min(largest.clone())
        };
        let rows: Vec<Natural> = weights.iter().map(row).collect();
        let file = Matrix::from_values(columns, &rows).encode();
        assert_eq!(build(weights, columns, false, file.len()), Ok(file));
        built += 1;
    });
    assert!(built > 150, "{built}");
}

/// A list for signed use builds as the plain one of w_0, 2 × w_1, 2 × w_2, .. does.
#[test]
fn signed_lists_build_as_plain_ones_of_doubled_weights() {
    let (mut built, mut unlike) = (0, 0);
    each_build(30, 800, |weights, columns, signed| {
        if !signed {
            return;
        }
        // Twice as much as these has 32 bits.
        let list: Vec<u32> = weights.iter().map(|weight| weight / 2).collect();
        let each = list.iter().enumerate();
        let doubled: Vec<u32> = each
            .map(|(v, &weight)| if v == 0 { weight } else { 2 * weight })
            .collect();
        let signed = build(&list, columns, true, usize::MAX);
        assert_eq!(signed, build(&doubled, columns, false, usize::MAX));
        built += usize::from(signed.is_ok());
        unlike += usize::from(signed != build(&list, columns, false, usize::MAX));
    });
    assert!(built > 400 && unlike > 200, "{built} and {unlike}");
}

/// The signed samples of all strings of a matrix file, each with both signs, as its program gives
/// them: compiled, sliced, started, and read with the sign.
fn signed_draws(file: &[u8], columns: usize) -> Vec<i16> {
    let program = compile(file, usize::MAX).unwrap();
    let rows = program::check(&program).unwrap().rows;
    let strings: Vec<Vec<u8>> = all_strings(columns).map(|bits| pack(&bits)).collect();
    let lanes = strings.iter().cycle().take(strings.len().max(64));
    let packed: Vec<u8> = lanes.flatten().copied().collect();
    let mut samples = Vec::new();
    for batch in packed.chunks(64 * columns.div_ceil(8)) {
        let words = slice(columns, batch, columns).unwrap();
        let run = start(&program, &words, 1_024, 8, u32::MAX).unwrap();
        for sign in [0, u64::MAX] {
            let read = signed_samples(rows, &run.outputs, sign, 64).unwrap();
            samples.extend(&read[..strings.len().min(64)]);
        }
    }
    samples
}

/// 02, order 5, on one accepted matrix, over all its strings and both signs: a value other than 0
/// is given by p of its distance many, 0 by 2 × p_0, and 2 × (2^n - T) miss. Answers how often each
/// is given.
fn values_are_right(matrix: &Matrix) -> Counts {
    let mut given = counts(&signed_draws(&matrix.encode(), matrix.columns));
    let missed = given.remove(&32_767).unwrap_or_default();
    assert_eq!(missed, matrix.misses().shifted_up(1));
    let mut due = Counts::from([(0, matrix.value(0).shifted_up(1))]);
    for v in 1..matrix.rows {
        due.extend([v as i64, -(v as i64)].map(|value| (value, matrix.value(v))));
    }
    due.retain(|_, times| !times.is_zero());
    assert_eq!(given, due);
    assert_eq!(given, signed_counts(matrix));
    given
}

#[test]
fn values_of_all_small_matrices() {
    for (rows, columns) in small_sizes(9) {
        for matrix in all_matrices(rows, columns).filter(Matrix::is_accepted) {
            values_are_right(&matrix);
        }
    }
}

/// What is built of a list for signed use gives each value as its weight says, 0 as any other: with
/// S the weight of all values together, value z comes c times of 2^(n+1), where c × S is at most
/// 2^(n+1) × w and that at most (c + 2) × S.
fn values_have_their_weights(weights: &[u32], columns: usize) {
    let file = build(weights, columns, true, usize::MAX).unwrap();
    let given = values_are_right(&decode(&file).unwrap());
    let last = weights.len() as i64 - 1;
    let weight = |value: i64| u64::from(weights[value.unsigned_abs() as usize]);
    let sum: u64 = (-last..=last).map(weight).sum();
    let others: u64 = (1..=last).map(weight).sum();
    assert_eq!(sum, weight(0) + 2 * others);
    for value in -last..=last {
        let times = given.get(&value).map_or(0, |times| times.word().unwrap());
        let due = weight(value) << (columns + 1);
        assert!(
            times * sum <= due && due <= (times + 2) * sum,
            "{value} of {weights:?} with n = {columns}: {times}"
        );
    }
}

/// All lists of up to four weights up to 3, with 1 to 4 columns, and of two up to 8 with 6.
#[test]
fn values_of_all_small_lists() {
    let small = (1..=4).map(|number| (number, 3, 1..=4));
    let mut tried = 0;
    for (number, most, sizes) in small.chain([(2, 8, 6..=6)]) {
        for list in all_lists(number, most) {
            let weights: Vec<u32> = list.iter().map(|&weight| weight as u32).collect();
            if weights.iter().any(|&weight| weight > 0) {
                for columns in sizes.clone() {
                    values_have_their_weights(&weights, columns);
                    tried += 1;
                }
            }
        }
    }
    assert_eq!(tried, (4 + 16 + 64 + 256 - 4) * 4 + (81 - 1));
}

/// Lists of up to 40 weights of any size, with up to 7 columns.
#[test]
fn values_of_random_lists() {
    let mut random = Random::new(31);
    let mut tried = 0;
    while tried < 150 {
        let (number, columns) = (random.between(1, 40), random.between(1, 7));
        let weights = random::distance_weights(&mut random, number);
        if weights.iter().any(|&weight| weight > 0) {
            values_have_their_weights(&weights, columns);
            tried += 1;
        }
    }
}

/// Compiled programs are accepted, within the limits, and no longer than the bound of 962
/// instructions a column, and 17 more.
#[test]
fn compiled_programs_are_sound() {
    let mut random = Random::new(16);
    let longest = [longest_program_of(128), longest_program()];
    let counts = longest
        .each_ref()
        .map(|matrix| translate(matrix).header.count);
    assert_eq!(counts, [116_941, 178_509]);
    let many = (0..40).map(|_| random::any_matrix(&mut random));
    let full =
        [true, false].map(|few| random::matrix_by_columns(&mut Random::new(36), 128, 192, few));
    for matrix in many.chain(longest).chain(full).chain([document_002_fine()]) {
        let translated = translate(&matrix);
        let file = translated.encode();
        assert_eq!(file.len(), translated.length());
        assert_eq!(program::decode(&file), Ok(translated.clone()));
        assert_eq!(translated.header.inputs, matrix.columns);
        assert_eq!(translated.header.rows, matrix.rows);
        assert!(translated.header.count <= 17 + 962 * matrix.columns);
    }
}

#[test]
fn draws_are_walks() {
    let mut random = Random::new(17);
    for _ in 0..40 {
        let matrix = random::any_matrix(&mut random);
        let (rows, columns, file) = (matrix.rows, matrix.columns, matrix.encode());
        let program = compile(&file, usize::MAX).unwrap();
        let strings = random::strings(&mut random, &matrix);
        let sign = random.word();
        let plain = draw(&program, &strings, 64).unwrap();
        let with_signs = draw_signed(&program, &strings, sign, 64);
        let words = slice(columns, &strings, columns).unwrap();
        let run = start(&program, &words, 1_024, 8, u32::MAX).unwrap();
        assert_eq!(samples(rows, &run.outputs, 64).as_ref(), Ok(&plain));
        let read = signed_samples(rows, &run.outputs, sign, 64);
        assert_eq!(read, with_signs);
        let with_signs = with_signs.unwrap();
        for (lane, string) in strings.chunks(columns.div_ceil(8)).enumerate() {
            let row = walk(&file, string).unwrap().row;
            assert_eq!(plain[lane], row.map_or(255, |row| row as u8));
            assert_eq!(with_signs[lane], signed(row, sign >> lane & 1 == 1));
        }
    }
}

#[test]
fn slicing_transposes() {
    let mut random = Random::new(18);
    for columns in 1..=192 {
        let strings = random::packed_strings(&mut random, columns, 64);
        let words = slice(columns, &strings, columns).unwrap();
        for (lane, string) in strings.chunks(columns.div_ceil(8)).enumerate() {
            let bits: Vec<u8> = words.iter().map(|word| (word >> lane & 1) as u8).collect();
            assert_eq!(bits, unpack(string, columns));
            assert_eq!(pack(&bits), string);
        }
    }
}

#[test]
fn resumes_end_as_the_unbroken_run() {
    let mut random = Random::new(19);
    for _ in 0..400 {
        let body = random.below(30);
        let program = random::program(&mut random, body);
        let (header, file) = (program.header, program.encode());
        assert_eq!(program::check(&file), Ok(header));
        let inputs = random.words(header.inputs);
        let first = random.below(header.count + 2) as u32;
        let second = random.pick(&[0, 1, 5, u32::MAX - 3, u32::MAX]);
        let whole = start(
            &file,
            &inputs,
            header.registers,
            header.outputs,
            first.saturating_add(second),
        );
        let stop = start(&file, &inputs, header.registers, header.outputs, first).unwrap();
        let rest = resume(
            &file,
            &inputs,
            &stop.registers,
            &stop.outputs,
            stop.position,
            second,
        );
        let (whole, rest) = (whole.unwrap(), rest.unwrap());
        assert_eq!(stop.count, first.min(header.count as u32));
        assert_eq!(stop.finished, first as usize >= header.count);
        assert_eq!(whole.count, stop.count + rest.count);
        assert_eq!(whole.position, rest.position);
        assert_eq!(whole.finished, rest.finished);
        assert_eq!(
            (whole.registers, whole.outputs),
            (rest.registers, rest.outputs)
        );
    }
}

/// Lent memory is untouched by a refusal, and beyond a result's own extent by any answer.
#[test]
fn lent_memory_beyond_the_result_is_untouched() {
    let file = Matrix::from_texts(&["1", "1"]).encode();
    let mut program = [0xa5; 120];
    let mut length = 7;
    assert_eq!(lent::compile(&file, &mut program[..115], &mut length), 13);
    assert_eq!((program, length), ([0xa5; 120], 7));
    assert_eq!(lent::compile(&file, &mut program, &mut length), 0);
    assert_eq!((length, &program[116..]), (116, &[0xa5; 4][..]));

    let start = |program: &[u8]| {
        let (mut registers, mut outputs) = ([9; 12], [9; 3]);
        let (mut position, mut count, mut finished) = (8, 8, true);
        let returned = lent::start(
            program,
            &[1],
            &mut registers,
            &mut outputs,
            4,
            &mut position,
            &mut count,
            &mut finished,
        );
        (returned, registers, outputs, (position, count, finished))
    };
    assert_eq!(start(&program), (4, [9; 12], [9; 3], (8, 8, true)));
    let registers = [1, 0, 0, 0, u64::MAX, 0, 0, 0, 0, 0, 9, 9];
    let run = (4, 4, false);
    assert_eq!(start(&program[..116]), (0, registers, [0, 0, 9], run));
}

/// The numbers that a walk and `spent` answer with are set by a result and kept by a refusal.
#[test]
fn lent_numbers_are_untouched_by_a_refusal() {
    let file = Matrix::from_texts(&["10", "01", "01"]).encode();
    let walk = |file: &[u8], string: &[u8]| {
        let (mut row, mut used) = (77, 88);
        let returned = lent::walk(file, string, &mut row, &mut used);
        (returned, row, used)
    };
    assert_eq!(walk(&file, &[0xc0]), (0, 1, 2));
    assert_eq!(walk(&file[..10], &[0xc0]), (1, 77, 88));
    assert_eq!(walk(&file, &[]), (13, 77, 88));
    assert_eq!(walk(&file, &[0x20]), (5, 77, 88));
    let missed = Matrix::from_texts(&["100"]).encode();
    assert_eq!(walk(&missed, &[0x80]), (0, 255, 3));

    let spent = |file: &[u8], strings: &[u8]| {
        let mut total = 99;
        (lent::spent(file, strings, &mut total), total)
    };
    assert_eq!(spent(&file, &[0xc0; 64]), (0, 128));
    assert_eq!(spent(&file[..10], &[0xc0; 64]), (1, 99));
    assert_eq!(spent(&file, &[0xc0; 63]), (13, 99));
    assert_eq!(spent(&file, &[0x20; 64]), (5, 99));
}

/// Results are laid over the first 64 numbers alone, and by a refusal over none.
#[test]
fn lent_results_are_untouched_by_a_refusal() {
    let combined = |x4: &[i16], second: u32, lent: usize| {
        let mut results = [77; 66];
        let [x1, x2, x3] = [5, -2, 7].map(|entry| [entry; 64]);
        let returned = lent::combine(&x1, &x2, &x3, x4, 3, second, &mut results[..lent]);
        (returned, results)
    };
    let mut results = [109; 66];
    results[64..].fill(77);
    assert_eq!(combined(&[1; 65], 11, 66), (0, results));
    assert_eq!(combined(&[1; 64], 11, 64), (0, results));
    assert_eq!(combined(&[1; 64], 1_001, 66), (14, [77; 66]));
    assert_eq!(combined(&[1; 63], 11, 66), (13, [77; 66]));
    assert_eq!(combined(&[1; 64], 11, 63), (13, [77; 66]));
    let mut x4 = [1; 64];
    x4[63] = 128;
    assert_eq!(combined(&x4, 11, 66), (5, [77; 66]));
}

/// What importing, exporting and looking up answer with is laid down at the front alone, and by a
/// refusal nothing is.
#[test]
fn lent_tables_are_untouched_by_a_refusal() {
    let import = |table: &[u64], columns: usize, lent: usize| {
        let (mut file, mut length) = ([0xa5; 13], 77);
        let returned = lent::import(table, columns, &mut file[..lent], &mut length);
        (returned, file, length)
    };
    let file = [0x0b, 0, 0x20, 0, 3, 0, 2, 0, 0x80, 0x40, 0x40, 0xa5, 0xa5];
    for lent in [11, 12, 13] {
        assert_eq!(import(&[0, 2, 3, 4], 2, lent), (0, file, 11));
    }
    assert_eq!(import(&[0, 2, 3, 4], 2, 10), (13, [0xa5; 13], 77));
    assert_eq!(import(&[0, 2, 3, 4], 0, 13), (3, [0xa5; 13], 77));
    assert_eq!(import(&[0, 2, 1, 4], 2, 13), (15, [0xa5; 13], 77));
    assert_eq!(import(&[0, 0, 4, 4], 2, 13), (16, [0xa5; 13], 77));

    let export = |file: &[u8], lent: usize| {
        let (mut table, mut numbers, mut columns) = ([9; 6], 77, 88);
        let returned = lent::export(file, &mut table[..lent], &mut numbers, &mut columns);
        (returned, table, (numbers, columns))
    };
    for lent in [4, 5, 6] {
        assert_eq!(export(&file[..11], lent), (0, [0, 2, 3, 4, 9, 9], (4, 2)));
    }
    assert_eq!(export(&file[..11], 3), (13, [9; 6], (77, 88)));
    assert_eq!(export(&file[..10], 6), (1, [9; 6], (77, 88)));
    let wide = Matrix::from_texts(&[&"0".repeat(64)]).encode();
    assert_eq!(export(&wide, 6), (3, [9; 6], (77, 88)));

    let lookup = |table: &[u64], r: u64| {
        let mut sample = 77;
        (lent::lookup(table, 2, r, &mut sample), sample)
    };
    assert_eq!(lookup(&[0, 2, 3, 4], 4), (0, 2));
    assert_eq!(lookup(&[0, 2, 3], 4), (0, 255));
    assert_eq!(lookup(&[0, 2, 3], 5), (3, 77));
    assert_eq!(lookup(&[0, 2, 1], 1), (15, 77));
    assert_eq!(lookup(&[0, 4], 1), (16, 77));
}

/// A string is laid down at the front alone, none and a refusal lay nothing, and only a refusal
/// leaves as it was whether there is one.
#[test]
fn lent_strings_are_untouched_by_none_and_by_a_refusal() {
    let file = Matrix::from_texts(&["000000001", "111111111", "000000000"]).encode();
    for before in [false, true] {
        let string_for = |file: &[u8], row: usize, lent: usize| {
            let (mut string, mut found) = ([0xa5; 4], before);
            let returned = lent::string_for(file, row, &mut string[..lent], &mut found);
            (returned, string, found)
        };
        for lent in [2, 3, 4] {
            let laid = [0xff, 0x80, 0xa5, 0xa5];
            assert_eq!(string_for(&file, 0, lent), (0, laid, true));
            let laid = [0x00, 0x00, 0xa5, 0xa5];
            assert_eq!(string_for(&file, 1, lent), (0, laid, true));
            assert_eq!(string_for(&file, 2, lent), (0, [0xa5; 4], false));
            assert_eq!(string_for(&file, 3, lent), (3, [0xa5; 4], before));
            let short = &file[..file.len() - 1];
            assert_eq!(string_for(short, 0, lent), (1, [0xa5; 4], before));
        }
        for row in [0, 1, 2] {
            assert_eq!(string_for(&file, row, 1), (13, [0xa5; 4], before));
        }
    }
}
