//! 02, order 4: cumulative tables. A matrix from one, the one of a matrix, and the sample that a
//! number r is looked up as.
//!
//! A table is a list of rows here: the differences of neighbours, in numbers that hold a fall too.
//! All rules on a table are rules on its rows, and r is looked up by taking row after row off it.

use crate::matrix::{decode, file_length, Matrix, MOST_ROWS};
use crate::natural::Natural;
use crate::refusal::{refuse, Answer, BUFFER, SIZE, STEP, TABLE};

/// The fewest numbers of a table: those of one row.
pub const LEAST_NUMBERS: usize = 2;
/// The most numbers of a table: one more than a matrix has rows.
pub const MOST_NUMBERS: usize = MOST_ROWS + 1;
/// The most columns of a matrix that has a table: with more, 2^n has no place in 64 bits.
pub const MOST_TABLE_COLUMNS: usize = 63;

/// What exporting comes to.
#[derive(Clone, Debug, PartialEq, Eq)]
pub struct Exported {
    /// n.
    pub columns: usize,
    /// m + 1 numbers.
    pub table: Vec<u64>,
}

/// 2^n.
fn all(columns: usize) -> i128 {
    1 << columns
}

/// 3 for the number of numbers, or for n.
fn check_sizes(table: &[u64], columns: usize) -> Answer<()> {
    let numbers = (LEAST_NUMBERS..=MOST_NUMBERS).contains(&table.len());
    let within = (1..=MOST_TABLE_COLUMNS).contains(&columns);
    refuse(SIZE, !numbers || !within)
}

/// The rows of a table of sound sizes, or its refusal: 15, then 16. The rows of one that begins at
/// 0 add up to its last number.
fn rows_of(table: &[u64], columns: usize) -> Answer<Vec<i128>> {
    let pairs = table.windows(2);
    let rows: Vec<i128> = pairs
        .map(|pair| i128::from(pair[1]) - i128::from(pair[0]))
        .collect();
    refuse(TABLE, table[0] != 0)?;
    refuse(TABLE, rows.iter().any(|&row| row < 0))?;
    refuse(TABLE, rows.iter().sum::<i128>() > all(columns))?;
    refuse(STEP, rows.contains(&all(columns)))?;
    Ok(rows)
}

/// Importing: the matrix file laid into a buffer of `file_lent` bytes. The operation answers its
/// length.
pub fn import(table: &[u64], columns: usize, file_lent: usize) -> Answer<Vec<u8>> {
    check_sizes(table, columns)?;
    let rows = rows_of(table, columns)?;
    refuse(BUFFER, file_lent < file_length(rows.len(), columns))?;
    let value = |&row: &i128| Natural::from(u64::try_from(row).expect("a row is below 2^63"));
    let values: Vec<Natural> = rows.iter().map(value).collect();
    Ok(Matrix::from_values(columns, &values).encode())
}

/// The table of a matrix of any sizes: entry v is p_0 + .. + p_(v-1).
pub fn sums(matrix: &Matrix) -> Vec<Natural> {
    let mut sums = vec![Natural::zero()];
    for v in 0..matrix.rows {
        sums.push(sums[v].plus(&matrix.value(v)));
    }
    sums
}

/// The table of an accepted matrix of at most 63 columns.
pub fn table_of(matrix: &Matrix) -> Vec<u64> {
    let word = |sum: Natural| sum.word().expect("at most 2^63");
    sums(matrix).into_iter().map(word).collect()
}

/// Exporting: the table laid into a buffer of `table_lent` numbers. The operation answers how many
/// they are, and n.
pub fn export(file: &[u8], table_lent: usize) -> Answer<Exported> {
    let matrix = decode(file)?;
    refuse(SIZE, matrix.columns > MOST_TABLE_COLUMNS)?;
    refuse(BUFFER, table_lent < matrix.rows + 1)?;
    Ok(Exported {
        columns: matrix.columns,
        table: table_of(&matrix),
    })
}

/// Looking r up: the sample, or nothing for a miss. r is one of 1 to 2^n, of which the first p_0
/// are 0's, the next p_1 are 1's, and so on; those after the last row's are misses.
pub fn lookup(table: &[u64], columns: usize, r: u64) -> Answer<Option<usize>> {
    check_sizes(table, columns)?;
    let mut left = i128::from(r);
    refuse(SIZE, !(1..=all(columns)).contains(&left))?;
    for (sample, row) in rows_of(table, columns)?.into_iter().enumerate() {
        if left <= row {
            return Ok(Some(sample));
        }
        left -= row;
    }
    Ok(None)
}
