//! A generator with a fixed seed, and the inputs that are made with it: matrices, strings, lists of
//! signed samples, cumulative tables, programs, words.

use crate::cumulative::{table_of, LEAST_NUMBERS, MOST_NUMBERS, MOST_TABLE_COLUMNS};
use crate::damage::NO_SAMPLES;
use crate::lanes::{LANES, SIGNED_MISS};
use crate::matrix::{Matrix, MOST_COLUMNS, MOST_ROWS};
use crate::natural::Natural;
use crate::program::{Header, Instruction, Operation, Program, Role, VALUE_BIT_CASES};
use crate::record::pack;
use crate::walk::{place_after_column, Place};
use crate::wide::MOST_SAMPLE;

/// The generator splitmix64: the same seed gives the same numbers everywhere.
#[derive(Clone, Debug)]
pub struct Random {
    state: u64,
}

impl Random {
    /// The generator at its start.
    pub fn new(seed: u64) -> Self {
        Random { state: seed }
    }

    /// A generator of its own, which leaves this one where it stands.
    pub fn aside(&self) -> Self {
        Random::new(self.clone().word())
    }

    /// The next 64 bits.
    pub fn word(&mut self) -> u64 {
        self.state = self.state.wrapping_add(0x9e37_79b9_7f4a_7c15);
        let mut mixed = self.state;
        mixed = (mixed ^ mixed >> 30).wrapping_mul(0xbf58_476d_1ce4_e5b9);
        mixed = (mixed ^ mixed >> 27).wrapping_mul(0x94d0_49bb_1331_11eb);
        mixed ^ mixed >> 31
    }

    /// A number below `bound`, which is above 0.
    pub fn below(&mut self, bound: usize) -> usize {
        ((u128::from(self.word()) * bound as u128) >> 64) as usize
    }

    /// A number from `first` to `last`.
    pub fn between(&mut self, first: usize, last: usize) -> usize {
        first + self.below(last - first + 1)
    }

    /// One of these.
    pub fn pick<T: Clone>(&mut self, choices: &[T]) -> T {
        choices[self.below(choices.len())].clone()
    }

    /// Yes, once in `times` times.
    pub fn once_in(&mut self, times: usize) -> bool {
        self.below(times) == 0
    }

    /// 0 or 1.
    pub fn bit(&mut self) -> u8 {
        (self.word() >> 63) as u8
    }

    /// Bytes of any content.
    pub fn bytes(&mut self, length: usize) -> Vec<u8> {
        (0..length).map(|_| self.word() as u8).collect()
    }

    /// Words of any content.
    pub fn words(&mut self, length: usize) -> Vec<u64> {
        (0..length).map(|_| self.word()).collect()
    }

    /// Bits, one a byte.
    pub fn bits(&mut self, length: usize) -> Vec<u8> {
        (0..length).map(|_| self.bit()).collect()
    }

    /// A number of at most `bits` bits.
    pub fn natural(&mut self, bits: usize) -> Natural {
        Natural::from_bits(&self.bits(bits))
    }
}

/// Sizes next to whole bytes and words, and next to a limit, also the one before 02, order 8.
const EDGES: [usize; 17] = [
    7, 8, 9, 15, 16, 17, 31, 32, 33, 63, 64, 65, 127, 128, 129, 191, 192,
];

/// Rows and columns: small ones, uneven ones, and the largest.
pub fn sizes(random: &mut Random) -> (usize, usize) {
    sizes_within(random, MOST_COLUMNS)
}

/// The same with at most so many columns.
pub fn sizes_within(random: &mut Random, most_columns: usize) -> (usize, usize) {
    let mut size = |most: usize| match random.below(8) {
        0 => 1,
        1..=3 => random.between(1, 9),
        4 => random.pick(&EDGES[..EDGES.partition_point(|&edge| edge <= most)]),
        5 => most,
        _ => random.between(1, most),
    };
    (size(MOST_ROWS), size(most_columns))
}

/// An accepted matrix of any sizes.
pub fn any_matrix(random: &mut Random) -> Matrix {
    any_matrix_within(random, MOST_COLUMNS)
}

/// An accepted matrix of any rows and of at most so many columns.
pub fn any_matrix_within(random: &mut Random, most_columns: usize) -> Matrix {
    let (rows, columns) = sizes_within(random, most_columns);
    matrix(random, rows, columns)
}

/// An accepted matrix of these sizes.
pub fn matrix(random: &mut Random, rows: usize, columns: usize) -> Matrix {
    match random.below(4) {
        0 => matrix_of_parts(random, rows, columns, true),
        1 => matrix_of_parts(random, rows, columns, false),
        2 => matrix_by_columns(random, rows, columns, true),
        _ => matrix_by_columns(random, rows, columns, false),
    }
}

/// An accepted matrix whose rows part 2^n, or a random number below it, at random places.
pub fn matrix_of_parts(random: &mut Random, rows: usize, columns: usize, whole: bool) -> Matrix {
    let all = Natural::power_of_two(columns);
    let total = if whole {
        all.clone()
    } else {
        random.natural(columns)
    };
    let mut edges: Vec<Natural> = (1..rows)
        .map(|_| random.natural(columns).min(total.clone()))
        .collect();
    edges.extend([Natural::zero(), total]);
    edges.sort();
    let largest = all.minus(&Natural::from(1));
    let values: Vec<Natural> = edges
        .windows(2)
        .map(|pair| pair[1].minus(&pair[0]).min(largest.clone()))
        .collect();
    Matrix::from_values(columns, &values)
}

/// An accepted matrix made column by column: of the open nodes of the tree some become leaves, of
/// rows chosen at random. Few leaves keep the tree wide; many close it early.
pub fn matrix_by_columns(random: &mut Random, rows: usize, columns: usize, few: bool) -> Matrix {
    let mut entries = vec![0; rows * columns];
    let mut open = Natural::from(1);
    for column in 0..columns {
        open.double_and_add(0);
        let most = if open.width() > 16 {
            rows
        } else {
            low_word(&open).min(rows)
        };
        let bound = if few { random.between(0, most) } else { most };
        let ones = random.between(0, bound);
        for row in chosen(random, rows, ones) {
            entries[row * columns + column] = 1;
            open.decrease();
        }
    }
    Matrix {
        rows,
        columns,
        entries,
    }
}

/// A number of at most 16 bits as one of the machine's.
fn low_word(number: &Natural) -> usize {
    number
        .bits(16)
        .iter()
        .fold(0, |sum, &bit| 2 * sum + usize::from(bit))
}

/// So many different numbers below `bound`.
fn chosen(random: &mut Random, bound: usize, number: usize) -> Vec<usize> {
    let mut all: Vec<usize> = (0..bound).collect();
    for i in 0..number {
        let j = random.between(i, bound - 1);
        all.swap(i, j);
    }
    all.truncate(number);
    all
}

/// A matrix that is refused by the least amount: an accepted one with T = 2^n and a bit more, where
/// it has room for one.
pub fn matrix_just_above(random: &mut Random, rows: usize, columns: usize) -> Option<Matrix> {
    let mut matrix = matrix_of_parts(random, rows, columns, true);
    if !matrix.misses().is_zero() {
        return None;
    }
    let room: Vec<usize> = (0..rows).filter(|&v| !matrix.bit(v, columns - 1)).collect();
    let row = *room.first()?;
    matrix.entries[row * columns + columns - 1] = 1;
    Some(matrix)
}

/// A string for a matrix, one bit a byte: any bits, or bits that hit late or not at all.
pub fn string(random: &mut Random, matrix: &Matrix) -> Vec<u8> {
    let columns = matrix.columns;
    match random.below(4) {
        0 => random.bits(columns),
        1 => {
            let ones = random.between(0, columns);
            let mut bits = vec![1; ones];
            bits.extend(random.bits(columns - ones));
            bits
        }
        _ => late_string(random, matrix),
    }
}

/// A string whose walk, up to a column chosen at random, takes the bit that does not hit wherever
/// one of the two does not.
fn late_string(random: &mut Random, matrix: &Matrix) -> Vec<u8> {
    let until = random.between(0, matrix.columns);
    let mut bits = Vec::new();
    let mut distance = Natural::zero();
    while bits.len() < until {
        let wanted = u8::from(random.once_in(4));
        let tried = [wanted, 1 - wanted];
        let left = tried.iter().find_map(|&bit| {
            match place_after_column(matrix, bits.len(), &distance, bit) {
                Place::Hit { .. } => None,
                Place::Left(distance) => Some((bit, distance)),
            }
        });
        let Some((bit, next)) = left else { break };
        bits.push(bit);
        distance = next;
    }
    bits.extend(random.bits(matrix.columns - bits.len()));
    bits
}

/// 64 packed strings for a matrix, one after another.
pub fn strings(random: &mut Random, matrix: &Matrix) -> Vec<u8> {
    (0..64)
        .flat_map(|_| pack(&string(random, matrix)))
        .collect()
}

/// Packed strings of n bits each, of any content.
pub fn packed_strings(random: &mut Random, columns: usize, number: usize) -> Vec<u8> {
    (0..number)
        .flat_map(|_| pack(&random.bits(columns)))
        .collect()
}

/// A list of signed samples: small ones, ones of any size or the largest; none of them a miss, some
/// or all.
pub fn signed_samples(random: &mut Random, number: usize) -> Vec<i16> {
    let most = random.pick(&[1, 20, MOST_SAMPLE, MOST_SAMPLE]);
    let largest = random.once_in(4);
    let misses = random.pick(&[0, 0, 0, 1, 8, LANES]);
    let entry = |random: &mut Random| match largest {
        _ if random.below(LANES) < misses => SIGNED_MISS,
        true => random.pick(&[-most, most]),
        false => random.between(0, 2 * most as usize) as i16 - most,
    };
    (0..number).map(|_| entry(random)).collect()
}

/// An entry that is no signed sample: one that may be taken for one, or any.
pub fn no_sample(random: &mut Random) -> i16 {
    let far = random.between(MOST_SAMPLE as usize + 1, SIGNED_MISS as usize - 1) as i16;
    let some = random.pick(&NO_SAMPLES);
    random.pick(&[some, far, -far])
}

/// How many numbers a cumulative table has, and its columns: few, next to a limit, or any.
pub fn table_sizes(random: &mut Random) -> (usize, usize) {
    let any = random.between(LEAST_NUMBERS, MOST_NUMBERS);
    let few = random.between(LEAST_NUMBERS, 9);
    let numbers = random.pick(&[few, few, few, LEAST_NUMBERS, any, MOST_NUMBERS]);
    let columns = random.between(1, MOST_TABLE_COLUMNS);
    let most = MOST_TABLE_COLUMNS;
    let columns = random.pick(&[columns, columns, columns, 1, 2, 31, 32, 33, most - 1, most]);
    (numbers, columns)
}

/// A cumulative table of these sizes that is imported: that of an accepted matrix.
pub fn table(random: &mut Random, numbers: usize, columns: usize) -> Vec<u64> {
    table_of(&matrix(random, numbers - 1, columns))
}

/// A number to look up, from 1 to 2^n: any, one of the table's numbers or the next, or at a limit.
pub fn within(random: &mut Random, table: &[u64], columns: usize) -> u64 {
    let all = 1 << columns;
    let any = random.word() & (all - 1);
    let (edge, small) = (random.pick(table), random.below(9) as u64);
    let wanted = random.pick(&[any, any, edge, edge, edge, small, all - 1]);
    let next = wanted.saturating_add(u64::from(random.bit()));
    next.clamp(1, all)
}

/// A number that can not be looked up: 0, above 2^n by one or by any amount, or with low bits that
/// are within.
pub fn without(random: &mut Random, columns: usize) -> u64 {
    let all = 1 << columns;
    let any = random.word() | 1 << 63;
    let far = any.max(all + 1);
    let low = (all << 1 | 1).max(all + 1);
    random.pick(&[0, 0, all + 1, all + 1, low, far, u64::MAX])
}

/// Breaks a rule on the numbers of a table: the first is not 0, one falls, the last is above 2^n,
/// or a difference is 2^n. Columns outside their limits count as some within.
pub fn table_fault(random: &mut Random, table: &mut [u64], columns: usize) {
    let all = 1 << (columns % 64).clamp(1, MOST_TABLE_COLUMNS);
    let last = table.len() - 1;
    let (any, step) = (random.below(last + 1), random.between(last.min(1), last));
    match random.below(5) {
        0 => table[0] = random.pick(&[1, table[last], all, 1 << 32, 1 << 63, u64::MAX]),
        1 => {
            let before = table[any.saturating_sub(1)];
            table[any] = before.wrapping_sub(random.pick(&[1, 1, 1 << 32, 1 << 63]));
        }
        2 => {
            let more = random.below(1 << 16) as u64;
            table[last] = random.pick(&[all + 1, all + more, u64::MAX, u64::MAX - more]);
        }
        _ => {
            table[..step].fill(0);
            table[step..].fill(all);
        }
    }
}

/// Rows that go with so many outputs: the fewest, the most, or any.
pub fn rows_for(random: &mut Random, outputs: usize) -> usize {
    let (fewest, most, _) = VALUE_BIT_CASES[outputs - 1];
    let any = random.between(fewest, most);
    random.pick(&[fewest, most, any, any])
}

/// An accepted program with `body` instructions and as many more as set the outputs that are left.
/// Its rows come from a generator aside, so that the others are what they were before 02, order 10.
pub fn program(random: &mut Random, body: usize) -> Program {
    let mut header = Header {
        registers: random.between(1, 12),
        inputs: random.between(1, 6),
        outputs: random.between(1, 8),
        rows: 0,
        count: 0,
    };
    header.rows = rows_for(&mut random.aside(), header.outputs);
    let mut written = vec![];
    let mut instructions = Vec::new();
    for _ in 0..body {
        let instruction = instruction(random, &header, &written);
        note_written(&instruction, &mut written);
        instructions.push(instruction);
    }
    if written.is_empty() {
        instructions.push(Instruction::new(Operation::Ones, &[0]));
        written.push(0);
    }
    for output in 0..header.outputs {
        let from = random.pick(&written);
        instructions.push(Instruction::new(Operation::Output, &[output, from]));
    }
    header.count = instructions.len();
    Program {
        header,
        instructions,
    }
}

/// An instruction that reads only registers written before.
fn instruction(random: &mut Random, header: &Header, written: &[usize]) -> Instruction {
    let to = random.below(header.registers);
    let choice = if written.is_empty() {
        random.below(3)
    } else {
        random.below(12)
    };
    match choice {
        0 => Instruction::new(Operation::Ones, &[to]),
        1 => Instruction::new(Operation::Zero, &[to]),
        2..=4 => Instruction::new(Operation::Input, &[to, random.below(header.inputs)]),
        5 | 6 => Instruction::new(Operation::Not, &[to, random.pick(written)]),
        7 | 8 => Instruction::new(
            Operation::And,
            &[to, random.pick(written), random.pick(written)],
        ),
        9 | 10 => Instruction::new(
            Operation::Or,
            &[to, random.pick(written), random.pick(written)],
        ),
        _ => Instruction::new(
            Operation::Output,
            &[random.below(header.outputs), random.pick(written)],
        ),
    }
}

/// Adds the register that the instruction writes to those written.
fn note_written(instruction: &Instruction, written: &mut Vec<usize>) {
    for to in instruction.with_role(Role::To) {
        if !written.contains(&to) {
            written.push(to);
        }
    }
}

/// Weights: equal ones, small ones, ones of any size, and lists with zeros.
pub fn weights(random: &mut Random, number: usize) -> Vec<u32> {
    let style = random.below(5);
    let weight = |random: &mut Random| match style {
        0 => 1,
        1 => random.below(4) as u32,
        2 => u32::MAX - random.below(2) as u32,
        3 => (random.word() as u32) >> random.below(32),
        _ => random.word() as u32,
    };
    (0..number).map(|_| weight(random)).collect()
}

/// Weights by distance: as above, and in some lists the first is 0; or all others are; or all but
/// the first, or one of them, or all are the largest number; or they fall.
pub fn distance_weights(random: &mut Random, number: usize) -> Vec<u32> {
    let mut list = weights(random, number);
    let any = random.below(number);
    match random.below(8) {
        0 => list[0] = 0,
        1 => list[1..].fill(0),
        2 => list[1..].fill(u32::MAX),
        3 => list[any] = u32::MAX,
        4 => list.fill(u32::MAX),
        5 => list.sort_by(|one, other| other.cmp(one)),
        _ => {}
    }
    list
}
