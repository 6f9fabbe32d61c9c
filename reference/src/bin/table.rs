//! Writes the matrix file of a table to standard output.

use reference::extremes::{longest_program, with_program_length};
use reference::listing::MOST_LISTED;
use reference::matrix::Matrix;
use reference::tables::{document_001, document_002, document_002_fine, document_004};
use std::io::{self, Write};

const USAGE: &str = "usage: table NAME

  001        source document 001, section 5.2: 12 rows, 128 columns
  002        source document 002, sigma 6.15543: 87 rows, 128 columns
  002-fine   the same curve: 100 rows, 192 columns
  004        source document 004, table 5: 11 rows, 80 columns
  longest    128 rows and 192 columns, with a program of 178,509 instructions
  listed     a matrix whose program has 65,536 bytes, which `lister` lists
  unlisted   a matrix whose program has 65,538 bytes, which it refuses";

fn table(name: &str) -> Option<Matrix> {
    match name {
        "001" => Some(document_001()),
        "002" => Some(document_002()),
        "002-fine" => Some(document_002_fine()),
        "004" => Some(document_004()),
        "longest" => Some(longest_program()),
        "listed" => with_program_length(MOST_LISTED),
        "unlisted" => with_program_length(MOST_LISTED + 2),
        _ => None,
    }
}

fn main() -> io::Result<()> {
    let name = std::env::args().nth(1).unwrap_or_default();
    match table(&name) {
        Some(matrix) => io::stdout().lock().write_all(&matrix.encode()),
        None => Err(io::Error::other(USAGE)),
    }
}
