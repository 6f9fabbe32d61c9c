//! 02, order 6, "Value bits by cases": matrices of every number of rows are compiled, their programs have as many registers and outputs as
//! the value bits that stand there say, and the rows (order 10), and the largest row is drawn. Other numbers of rows are refused.

use crate::faults::field_or_0;
use crate::lanes::draw_signed_on;
use crate::matrices::compile_on;
use crate::trial::{fail, must, Trial};
use reference::compiler::{translate, VALUE_BIT_CASES};
use reference::lanes::{LANES, SIGNED_MISS};
use reference::lent::DONE;
use reference::matrix::Matrix;
use reference::random::{self, Random};

/// Ends the tests where a program has other value bits than 02 says, or rows outside the cases are compiled.
pub fn compare() {
    let random = &mut Random::new(0);
    let mut trial = Trial::new("compile, draw ..", 0);
    for (fewest, most, bits) in VALUE_BIT_CASES {
        for rows in fewest..=most {
            for columns in [1, 7, 8, 63, 128, 129, 192] {
                let matrix = random::matrix_by_columns(random, rows, columns, true);
                compiled(&mut trial, random, &matrix, bits);
            }
            rows_are_drawn(&mut trial, random, rows, bits);
        }
    }
    for rows in [0, 129] {
        let file = ones(rows).encode();
        let (number, _) = compile_on(&mut trial, random, &file, 1 << 17);
        must(&format!("compile of {rows} rows"), 3, number);
    }
}

/// So many rows, each set in the last of 7 columns alone.
fn ones(rows: usize) -> Matrix {
    let columns = 7;
    let entries = [0, 0, 0, 0, 0, 0, 1].repeat(rows);
    Matrix {
        rows,
        columns,
        entries,
    }
}

/// Compiles into exactly the room that the program takes, and into a byte less. Returns the program, whose header has the matrix's rows and
/// their value bits.
fn compiled(trial: &mut Trial, random: &mut Random, matrix: &Matrix, bits: usize) -> Vec<u8> {
    let (file, room) = (matrix.encode(), translate(matrix).length());
    let (number, program) = compile_on(trial, random, &file, room);
    let what = format!(
        "compile of {} rows, {} columns",
        matrix.rows, matrix.columns
    );
    must(&what, DONE, number);
    let sizes = [4, 8, 10].map(|at| field_or_0(&program, at));
    let wanted = [3 + bits + 3 * matrix.rows, 1 + bits, matrix.rows];
    if sizes != wanted {
        fail(&format!(
            "{what}: registers, outputs and rows are {sizes:?}, and not {wanted:?}"
        ));
    }
    let (number, _) = compile_on(trial, random, &file, room - 1);
    must(&format!("{what}, with a byte less"), 13, number);
    program
}

/// The strings that spell 0 to 63 hit the rows from the last down, as far as there are any: the value bits write the largest row.
fn rows_are_drawn(trial: &mut Trial, random: &mut Random, rows: usize, bits: usize) {
    let program = compiled(trial, random, &ones(rows), bits);
    let strings: Vec<u8> = (0..64).map(|s| s << 1).collect();
    let (number, samples) = draw_signed_on(trial, random, &program, &strings, 0, LANES);
    must(&format!("draw_signed of {rows} rows"), DONE, number);
    let row = |s| {
        rows.checked_sub(1 + s)
            .map_or(SIGNED_MISS, |row| row as i16)
    };
    let wanted: Vec<i16> = (0..LANES).map(row).collect();
    if samples != wanted {
        fail(&format!(
            "draw_signed of {rows} rows leaves {samples:?}, and not {wanted:?}"
        ));
    }
}
