//! 01, "Matrix and walk" and "Files", and 02, order 8: matrices as values, and matrix files.

use crate::natural::Natural;
use crate::record::{expect_kind, field, has_spare_bit, pack, packed_length, put, unpack};
use crate::refusal::{refuse, Answer, BIT, BUFFER, LENGTH, SHORT, SIZE, TOTAL};

/// The most rows of a matrix.
pub const MOST_ROWS: usize = 128;
/// The most columns of a matrix (02, order 8).
pub const MOST_COLUMNS: usize = 192;
/// The kind of a matrix record.
pub const MATRIX_KIND: usize = 32;
/// The bytes of a matrix file before its rows.
pub const MATRIX_HEADER: usize = 8;

/// A matrix of bits. Two are equal when m, n and every bit agree.
#[derive(Clone, Debug, PartialEq, Eq)]
pub struct Matrix {
    /// m.
    pub rows: usize,
    /// n.
    pub columns: usize,
    /// m × n bytes of 0 or 1, row after row.
    pub entries: Vec<u8>,
}

impl Matrix {
    /// The matrix whose row v is the n-bit number `values[v]`.
    pub fn from_values(columns: usize, values: &[Natural]) -> Self {
        let entries = values
            .iter()
            .flat_map(|value| value.bits(columns))
            .collect();
        Matrix {
            rows: values.len(),
            columns,
            entries,
        }
    }

    /// The matrix of rows written as texts of `0` and `1`.
    pub fn from_texts(texts: &[&str]) -> Self {
        let entries = texts
            .iter()
            .flat_map(|text| text.bytes().map(|digit| digit - b'0'));
        Matrix {
            rows: texts.len(),
            columns: texts[0].len(),
            entries: entries.collect(),
        }
    }

    /// Row v, column 0 first.
    pub fn row(&self, v: usize) -> &[u8] {
        &self.entries[v * self.columns..(v + 1) * self.columns]
    }

    /// Whether the bit of row v in column c is 1.
    pub fn bit(&self, v: usize, c: usize) -> bool {
        self.entries[v * self.columns + c] == 1
    }

    /// p_v: row v, read with column 0 highest.
    pub fn value(&self, v: usize) -> Natural {
        Natural::from_bits(self.row(v))
    }

    /// T: the sum of all p_v.
    pub fn total(&self) -> Natural {
        (0..self.rows).fold(Natural::zero(), |sum, v| sum.plus(&self.value(v)))
    }

    /// Whether T is at most 2^n.
    pub fn is_accepted(&self) -> bool {
        self.total() <= Natural::power_of_two(self.columns)
    }

    /// 2^n - T: how many strings miss an accepted matrix.
    pub fn misses(&self) -> Natural {
        Natural::power_of_two(self.columns).minus(&self.total())
    }

    /// The matrix file.
    pub fn encode(&self) -> Vec<u8> {
        let mut file = Vec::new();
        put(&mut file, file_length(self.rows, self.columns));
        put(&mut file, MATRIX_KIND);
        put(&mut file, self.rows);
        put(&mut file, self.columns);
        for v in 0..self.rows {
            file.extend(pack(self.row(v)));
        }
        file
    }
}

/// Whether rows and columns are each within their limits.
pub fn are_sizes(rows: usize, columns: usize) -> bool {
    (1..=MOST_ROWS).contains(&rows) && (1..=MOST_COLUMNS).contains(&columns)
}

/// The length of the whole record of a matrix.
pub fn file_length(rows: usize, columns: usize) -> usize {
    MATRIX_HEADER + rows * packed_length(columns)
}

/// The matrix of a file, or its refusal: 1 and 2 of its first four bytes, then 1, 3, 4, 5 and 6 of
/// the whole, in that order.
pub fn decode(file: &[u8]) -> Answer<Matrix> {
    expect_kind(file, MATRIX_KIND)?;
    refuse(SHORT, file.len() < MATRIX_HEADER)?;
    let length = field(file, 0);
    refuse(SHORT, file.len() < length)?;
    let (rows, columns) = (field(file, 4), field(file, 6));
    refuse(SIZE, !are_sizes(rows, columns))?;
    refuse(LENGTH, length != file_length(rows, columns))?;
    refuse(LENGTH, file.len() > length)?;
    let packed_rows = || file[MATRIX_HEADER..].chunks(packed_length(columns));
    refuse(BIT, packed_rows().any(|row| has_spare_bit(row, columns)))?;
    let matrix = Matrix {
        rows,
        columns,
        entries: packed_rows().flat_map(|row| unpack(row, columns)).collect(),
    };
    refuse(TOTAL, !matrix.is_accepted())?;
    Ok(matrix)
}

/// Rows and columns of a matrix file.
pub fn check(file: &[u8]) -> Answer<(usize, usize)> {
    decode(file).map(|matrix| (matrix.rows, matrix.columns))
}

/// Reading: m, n, and the entries laid into a buffer of `entries_lent` bytes.
pub fn read(file: &[u8], entries_lent: usize) -> Answer<Matrix> {
    let matrix = decode(file)?;
    refuse(BUFFER, entries_lent < matrix.entries.len())?;
    Ok(matrix)
}

/// Writing: the file laid into a buffer of `file_lent` bytes. The operation answers its length.
pub fn write(rows: usize, columns: usize, entries: &[u8], file_lent: usize) -> Answer<Vec<u8>> {
    refuse(SIZE, !are_sizes(rows, columns))?;
    refuse(BUFFER, entries.len() < rows * columns)?;
    let entries = entries[..rows * columns].to_vec();
    refuse(BIT, entries.iter().any(|&entry| entry > 1))?;
    let matrix = Matrix {
        rows,
        columns,
        entries,
    };
    refuse(TOTAL, !matrix.is_accepted())?;
    refuse(BUFFER, file_lent < file_length(rows, columns))?;
    Ok(matrix.encode())
}
