//! Matrices made for the length of their programs.

use crate::compiler::translate;
use crate::matrix::{Matrix, MOST_COLUMNS, MOST_ROWS};

/// With 128 rows, every place of the tree that a program follows is open after this many columns
/// without a bit.
const OPENING: usize = 7;

/// The matrix of 128 rows and 192 columns whose rows are set in every column from the eighth on. It
/// has the longest program that there is with that beginning: a column keeps 128 places open and
/// marks 128 rows.
pub fn longest_program() -> Matrix {
    longest_program_of(MOST_COLUMNS)
}

/// The same with so many columns.
pub fn longest_program_of(columns: usize) -> Matrix {
    let mut matrix = empty(columns);
    for v in 0..MOST_ROWS {
        for c in OPENING..columns {
            set(&mut matrix, v, c);
        }
    }
    matrix
}

/// The row of such a matrix that a lane of the input words hits, worked out without it: from the
/// eighth column on, a distance below 128 hits, row 127 first, and any other loses 128.
pub fn row_of_longest(inputs: &[u64], lane: usize) -> Option<u64> {
    let mut distance = 0;
    for (column, word) in inputs.iter().enumerate() {
        distance = 2 * distance + (word >> lane & 1);
        match distance {
            _ if column < OPENING => {}
            0..128 => return Some(127 - distance),
            _ => distance -= 128,
        }
    }
    None
}

/// A matrix of 128 rows whose program file has exactly this length, where there is one among those
/// that begin with seven empty columns.
///
/// Such a column keeps 128 places open whatever is set in it. So each bit of row v adds only the
/// instructions that mark the row, one and one more for each bit of v, and the length that is
/// missing is made up of these.
pub fn with_program_length(length: usize) -> Option<Matrix> {
    (OPENING + 1..=MOST_COLUMNS).find_map(|columns| {
        let matrix = empty(columns);
        let missing = length.checked_sub(translate(&matrix).length())?;
        (missing % 10 == 0).then_some(())?;
        filled(matrix, missing / 10)
    })
}

/// The matrix with bits set that need so many instructions of 10 bytes, if it has room for them.
fn filled(mut matrix: Matrix, mut instructions: usize) -> Option<Matrix> {
    for c in OPENING..matrix.columns {
        for v in (0..MOST_ROWS).rev() {
            let needed = 1 + v.count_ones() as usize;
            if needed <= instructions {
                set(&mut matrix, v, c);
                instructions -= needed;
            }
        }
    }
    (instructions == 0).then_some(matrix)
}

/// 128 rows without a bit.
fn empty(columns: usize) -> Matrix {
    Matrix {
        rows: MOST_ROWS,
        columns,
        entries: vec![0; MOST_ROWS * columns],
    }
}

fn set(matrix: &mut Matrix, row: usize, column: usize) {
    matrix.entries[row * matrix.columns + column] = 1;
}
