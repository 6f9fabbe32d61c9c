//! Corkhollow from Rust: what `corkhollow.h` declares, and a safe function for each of it.
//!
//! Take this file into a crate by `#[path = ".."] mod corkhollow;` and link the static library `corkhollow`: `bash include/archive` writes
//! target/staticlib/libcorkhollow.a. It uses `core` alone, so that it works without `std`, in the editions 2021 and 2024.
//! The header says what each operation takes, gives and refuses. A refusal has changed nothing that was lent.
//!
//! Nothing proves these declarations: they are kept in step with the engine by the tests in tests/interface and tests/wrapper.
#![allow(dead_code)] // a program that uses some of the operations need not use all

use core::fmt;

pub const LANES: usize = 64;
pub const ROWS: usize = 128;
pub const COLUMNS: usize = 192;
pub const REGISTERS: usize = 1024;
pub const INPUTS: usize = 192;
pub const OUTPUTS: usize = 8;
pub const INSTRUCTIONS: usize = 262_144;
pub const MOST_MULTIPLIER: u32 = 1_000;
/// The most columns of a cumulative table, and of a matrix that has one.
pub const TABLE_COLUMNS: usize = 63;
/// The most signers of a pool.
pub const SIGNERS: usize = 16;
/// The most words of a pool.
pub const POOL_WORDS: usize = 65_536;

/// A miss, as a sample.
pub const MISS: u8 = 255;
/// A miss, as a signed sample.
pub const SIGNED_MISS: i16 = 32_767;
/// A miss, as a result of combining.
pub const COMBINED_MISS: i32 = 2_147_483_647;

/// Buffers of these lengths are never too short: entries, a matrix file, a program file, the 64 strings of a batch, a cumulative table.
pub const MOST_ENTRIES: usize = ROWS * COLUMNS;
pub const MOST_MATRIX_BYTES: usize = matrix_length(ROWS, COLUMNS);
pub const MOST_PROGRAM_BYTES: usize = 16 + 10 * INSTRUCTIONS;
pub const MOST_STRING_BYTES: usize = LANES * width(COLUMNS);
pub const MOST_TABLE_NUMBERS: usize = ROWS + 1;

/// The bytes of one packed string or row.
pub const fn width(columns: usize) -> usize {
    columns.div_ceil(8)
}

/// The bytes of a matrix file.
pub const fn matrix_length(rows: usize, columns: usize) -> usize {
    8 + rows * width(columns)
}

/// The functions as they are linked; the header says what they promise.
pub mod raw {
    use super::Signer;

    unsafe extern "C" {
        pub fn corkhollow_read(
            file: *const u8,
            file_length: usize,
            entries: *mut u8,
            entries_length: usize,
            rows: *mut usize,
            columns: *mut usize,
        ) -> u32;
        pub fn corkhollow_write(
            rows: usize,
            columns: usize,
            entries: *const u8,
            entries_length: usize,
            file: *mut u8,
            file_length: usize,
            length: *mut usize,
        ) -> u32;
        pub fn corkhollow_build(
            weights: *const u32,
            weights_length: usize,
            columns: usize,
            is_signed: bool,
            file: *mut u8,
            file_length: usize,
            length: *mut usize,
        ) -> u32;
        pub fn corkhollow_walk(
            file: *const u8,
            file_length: usize,
            string: *const u8,
            string_length: usize,
            row: *mut usize,
            used: *mut usize,
        ) -> u32;
        pub fn corkhollow_spent(
            file: *const u8,
            file_length: usize,
            strings: *const u8,
            strings_length: usize,
            total: *mut usize,
        ) -> u32;
        pub fn corkhollow_string_for(
            file: *const u8,
            file_length: usize,
            row: usize,
            string: *mut u8,
            string_length: usize,
            found: *mut bool,
        ) -> u32;
        pub fn corkhollow_compile(
            file: *const u8,
            file_length: usize,
            program: *mut u8,
            program_length: usize,
            length: *mut usize,
        ) -> u32;
        pub fn corkhollow_check(
            program: *const u8,
            program_length: usize,
            registers: *mut usize,
            inputs: *mut usize,
            outputs: *mut usize,
            rows: *mut usize,
            count: *mut u32,
        ) -> u32;
        pub fn corkhollow_start(
            program: *const u8,
            program_length: usize,
            inputs: *const u64,
            inputs_length: usize,
            registers: *mut u64,
            registers_length: usize,
            outputs: *mut u64,
            outputs_length: usize,
            budget: u32,
            position: *mut u32,
            count: *mut u32,
            finished: *mut bool,
        ) -> u32;
        pub fn corkhollow_resume(
            program: *const u8,
            program_length: usize,
            inputs: *const u64,
            inputs_length: usize,
            registers: *mut u64,
            registers_length: usize,
            outputs: *mut u64,
            outputs_length: usize,
            position: u32,
            budget: u32,
            position_out: *mut u32,
            count: *mut u32,
            finished: *mut bool,
        ) -> u32;
        pub fn corkhollow_slice(
            columns: usize,
            strings: *const u8,
            strings_length: usize,
            words: *mut u64,
            words_length: usize,
        ) -> u32;
        pub fn corkhollow_samples(
            rows: usize,
            outputs: *const u64,
            outputs_length: usize,
            samples: *mut u8,
            samples_length: usize,
        ) -> u32;
        pub fn corkhollow_signed_samples(
            rows: usize,
            outputs: *const u64,
            outputs_length: usize,
            sign: u64,
            samples: *mut i16,
            samples_length: usize,
        ) -> u32;
        pub fn corkhollow_draw(
            program: *const u8,
            program_length: usize,
            strings: *const u8,
            strings_length: usize,
            samples: *mut u8,
            samples_length: usize,
        ) -> u32;
        pub fn corkhollow_draw_signed(
            program: *const u8,
            program_length: usize,
            strings: *const u8,
            strings_length: usize,
            sign: u64,
            samples: *mut i16,
            samples_length: usize,
        ) -> u32;
        pub fn corkhollow_combine(
            x1: *const i16,
            x1_length: usize,
            x2: *const i16,
            x2_length: usize,
            x3: *const i16,
            x3_length: usize,
            x4: *const i16,
            x4_length: usize,
            first: u32,
            second: u32,
            results: *mut i32,
            results_length: usize,
        ) -> u32;
        pub fn corkhollow_import(
            table: *const u64,
            table_length: usize,
            columns: usize,
            file: *mut u8,
            file_length: usize,
            length: *mut usize,
        ) -> u32;
        pub fn corkhollow_export(
            file: *const u8,
            file_length: usize,
            table: *mut u64,
            table_length: usize,
            numbers: *mut usize,
            columns: *mut usize,
        ) -> u32;
        pub fn corkhollow_lookup(
            table: *const u64,
            table_length: usize,
            columns: usize,
            r: u64,
            sample: *mut usize,
        ) -> u32;
        pub fn corkhollow_pool_open(
            words: usize,
            signers: *mut Signer,
            signers_length: usize,
        ) -> u32;
        pub fn corkhollow_pool_draw(
            words: usize,
            signers: *mut Signer,
            signers_length: usize,
            signer: usize,
            q: usize,
            start: *mut usize,
        ) -> u32;
        pub fn corkhollow_pool_refill(
            words: usize,
            signers: *mut Signer,
            signers_length: usize,
        ) -> u32;
    }
}

/// Why an operation was refused, by its number in the header's table.
#[derive(Clone, Copy, Debug, PartialEq, Eq)]
pub struct Refusal(pub u32);

impl fmt::Display for Refusal {
    fn fmt(&self, f: &mut fmt::Formatter) -> fmt::Result {
        let why = match self.0 {
            1 => "shorter than its records say",
            2 => "not the kind of file expected",
            3 => {
                "a size, or a number that is looked up, outside the limits, outputs that are not as many as the rows take, \
                 a row that the matrix has not, or records that no pool has"
            }
            4 => "a length field that does not fit, or bytes left over",
            5 => "a spare bit set, an entry neither 0 nor 1, or one of a list that is no signed sample",
            6 => "the rows add up to more than 2^columns",
            7 => "an instruction of no known kind or length",
            8 => "an operand not below its count",
            9 => "a register read before it is written",
            10 => "an output that no instruction sets",
            11 => "all weights are 0",
            12 => "a resume position above the count",
            13 => "a lent buffer is too short",
            14 => "a multiplier outside 1 to 1,000",
            15 => "a table that is not cumulative: its first number is not 0, one falls, or the last is above 2^columns",
            16 => "a cumulative table with a difference of 2^columns, which no row can hold",
            17 => "a signer number that the pool was not opened with",
            18 => "a draw above its signer's cap",
            19 => "a draw that would leave fewer words than the other signers lack of their reserves, or of more than are left",
            _ => "no refusal of the engine",
        };
        write!(f, "refusal {}: {why}", self.0)
    }
}

impl core::error::Error for Refusal {}

/// How a walk ended: the row that it hit, or none, and how many columns it used, all of them where it missed.
#[derive(Clone, Copy, Debug, PartialEq, Eq)]
pub struct Walk {
    pub row: Option<usize>,
    pub used: usize,
}

/// What a program's header says. The rows are those of the matrix file that it was compiled from: no sample of the program is as large.
#[derive(Clone, Copy, Debug, PartialEq, Eq)]
pub struct Header {
    pub registers: usize,
    pub inputs: usize,
    pub outputs: usize,
    pub rows: usize,
    pub count: u32,
}

/// How a run ended: the position reached, the instructions carried out in this call, and whether the program has finished.
#[derive(Clone, Copy, Debug, PartialEq, Eq)]
pub struct Run {
    pub position: u32,
    pub count: u32,
    pub finished: bool,
}

/// What a pool knows of one signer: the words that it is sure of, the most that it may draw between refills, and those that it has drawn
/// since the opening or the last refill, which the functions of the pool alone set.
#[derive(Clone, Copy, Debug, PartialEq, Eq)]
#[repr(C)]
pub struct Signer {
    pub reserve: u32,
    pub cap: u32,
    pub drawn: u32,
}

/// A result, where the number returned is 0.
fn settle<T>(returned: u32, result: T) -> Result<T, Refusal> {
    match returned {
        0 => Ok(result),
        number => Err(Refusal(number)),
    }
}

/// Reads a matrix file: its rows and columns; its entries are at the front of `entries`.
pub fn read(file: &[u8], entries: &mut [u8]) -> Result<(usize, usize), Refusal> {
    let (mut rows, mut columns) = (0, 0);
    // SAFETY: each pointer is that of a slice or of a number, with the slice's own length.
    let returned = unsafe {
        raw::corkhollow_read(
            file.as_ptr(),
            file.len(),
            entries.as_mut_ptr(),
            entries.len(),
            &mut rows,
            &mut columns,
        )
    };
    settle(returned, (rows, columns))
}

/// Writes a matrix file of the entries, and tells its length.
pub fn write(
    rows: usize,
    columns: usize,
    entries: &[u8],
    file: &mut [u8],
) -> Result<usize, Refusal> {
    let mut length = 0;
    // SAFETY: as in `read`.
    let returned = unsafe {
        raw::corkhollow_write(
            rows,
            columns,
            entries.as_ptr(),
            entries.len(),
            file.as_mut_ptr(),
            file.len(),
            &mut length,
        )
    };
    settle(returned, length)
}

/// Builds a matrix file from weights, and tells its length. Weight v is that of sample v, or where `signed` of the values v and -v, each:
/// give the curve's own weights, also that of 0, and `draw_signed` gives every value in proportion to its weight.
pub fn build(
    weights: &[u32],
    columns: usize,
    signed: bool,
    file: &mut [u8],
) -> Result<usize, Refusal> {
    let mut length = 0;
    // SAFETY: as in `read`.
    let returned = unsafe {
        raw::corkhollow_build(
            weights.as_ptr(),
            weights.len(),
            columns,
            signed,
            file.as_mut_ptr(),
            file.len(),
            &mut length,
        )
    };
    settle(returned, length)
}

/// Walks a matrix file on one packed string: the row that is hit, or none, and the columns used.
pub fn walk(file: &[u8], string: &[u8]) -> Result<Walk, Refusal> {
    let (mut row, mut used) = (0, 0);
    // SAFETY: as in `read`.
    let returned = unsafe {
        raw::corkhollow_walk(
            file.as_ptr(),
            file.len(),
            string.as_ptr(),
            string.len(),
            &mut row,
            &mut used,
        )
    };
    let row = (row != usize::from(MISS)).then_some(row);
    settle(returned, Walk { row, used })
}

/// Adds up the columns that the walks on 64 packed strings use.
pub fn spent(file: &[u8], strings: &[u8]) -> Result<usize, Refusal> {
    let mut total = 0;
    // SAFETY: as in `read`.
    let returned = unsafe {
        raw::corkhollow_spent(
            file.as_ptr(),
            file.len(),
            strings.as_ptr(),
            strings.len(),
            &mut total,
        )
    };
    settle(returned, total)
}

/// Finds the smallest packed string on which the walk hits a row, for self-tests: whether there is one, and then it is at the front of
/// `string`. There is none exactly where the row is all zero, and then `string` is as it was.
pub fn string_for(file: &[u8], row: usize, string: &mut [u8]) -> Result<bool, Refusal> {
    let mut found = false;
    // SAFETY: as in `read`.
    let returned = unsafe {
        raw::corkhollow_string_for(
            file.as_ptr(),
            file.len(),
            row,
            string.as_mut_ptr(),
            string.len(),
            &mut found,
        )
    };
    settle(returned, found)
}

/// Compiles a matrix file, and tells the program's length.
pub fn compile(file: &[u8], program: &mut [u8]) -> Result<usize, Refusal> {
    let mut length = 0;
    // SAFETY: as in `read`.
    let returned = unsafe {
        raw::corkhollow_compile(
            file.as_ptr(),
            file.len(),
            program.as_mut_ptr(),
            program.len(),
            &mut length,
        )
    };
    settle(returned, length)
}

/// Checks a program file: what its header says.
pub fn check(program: &[u8]) -> Result<Header, Refusal> {
    let (mut registers, mut inputs, mut outputs, mut rows, mut count) = (0, 0, 0, 0, 0);
    // SAFETY: as in `read`.
    let returned = unsafe {
        raw::corkhollow_check(
            program.as_ptr(),
            program.len(),
            &mut registers,
            &mut inputs,
            &mut outputs,
            &mut rows,
            &mut count,
        )
    };
    let header = Header {
        registers,
        inputs,
        outputs,
        rows,
        count,
    };
    settle(returned, header)
}

/// Starts a program on input words, from cleared registers and outputs.
pub fn start(
    program: &[u8],
    inputs: &[u64],
    registers: &mut [u64],
    outputs: &mut [u64],
    budget: u32,
) -> Result<Run, Refusal> {
    let (mut position, mut count, mut finished) = (0, 0, false);
    // SAFETY: as in `read`.
    let returned = unsafe {
        raw::corkhollow_start(
            program.as_ptr(),
            program.len(),
            inputs.as_ptr(),
            inputs.len(),
            registers.as_mut_ptr(),
            registers.len(),
            outputs.as_mut_ptr(),
            outputs.len(),
            budget,
            &mut position,
            &mut count,
            &mut finished,
        )
    };
    let run = Run {
        position,
        count,
        finished,
    };
    settle(returned, run)
}

/// Resumes a program at a position, with registers and outputs as a stop left them.
pub fn resume(
    program: &[u8],
    inputs: &[u64],
    registers: &mut [u64],
    outputs: &mut [u64],
    position: u32,
    budget: u32,
) -> Result<Run, Refusal> {
    let (mut position_out, mut count, mut finished) = (0, 0, false);
    // SAFETY: as in `read`.
    let returned = unsafe {
        raw::corkhollow_resume(
            program.as_ptr(),
            program.len(),
            inputs.as_ptr(),
            inputs.len(),
            registers.as_mut_ptr(),
            registers.len(),
            outputs.as_mut_ptr(),
            outputs.len(),
            position,
            budget,
            &mut position_out,
            &mut count,
            &mut finished,
        )
    };
    let run = Run {
        position: position_out,
        count,
        finished,
    };
    settle(returned, run)
}

/// Slices 64 packed strings into words.
pub fn slice(columns: usize, strings: &[u8], words: &mut [u64]) -> Result<(), Refusal> {
    // SAFETY: as in `read`.
    let returned = unsafe {
        raw::corkhollow_slice(
            columns,
            strings.as_ptr(),
            strings.len(),
            words.as_mut_ptr(),
            words.len(),
        )
    };
    settle(returned, ())
}

/// Reads 64 samples off output words, as many as the program that left them has outputs; a number that is not below its rows is a miss.
/// `check` tells both.
pub fn samples(rows: usize, outputs: &[u64], samples: &mut [u8]) -> Result<(), Refusal> {
    // SAFETY: as in `read`.
    let returned = unsafe {
        raw::corkhollow_samples(
            rows,
            outputs.as_ptr(),
            outputs.len(),
            samples.as_mut_ptr(),
            samples.len(),
        )
    };
    settle(returned, ())
}

/// Reads 64 signed samples off output words, with a sign word, and else as `samples` does.
pub fn signed_samples(
    rows: usize,
    outputs: &[u64],
    sign: u64,
    samples: &mut [i16],
) -> Result<(), Refusal> {
    // SAFETY: as in `read`.
    let returned = unsafe {
        raw::corkhollow_signed_samples(
            rows,
            outputs.as_ptr(),
            outputs.len(),
            sign,
            samples.as_mut_ptr(),
            samples.len(),
        )
    };
    settle(returned, ())
}

/// Draws 64 samples from a program and 64 packed strings, with the rows that its header says.
pub fn draw(program: &[u8], strings: &[u8], samples: &mut [u8]) -> Result<(), Refusal> {
    // SAFETY: as in `read`.
    let returned = unsafe {
        raw::corkhollow_draw(
            program.as_ptr(),
            program.len(),
            strings.as_ptr(),
            strings.len(),
            samples.as_mut_ptr(),
            samples.len(),
        )
    };
    settle(returned, ())
}

/// Draws 64 signed samples, with a sign word.
pub fn draw_signed(
    program: &[u8],
    strings: &[u8],
    sign: u64,
    samples: &mut [i16],
) -> Result<(), Refusal> {
    // SAFETY: as in `read`.
    let returned = unsafe {
        raw::corkhollow_draw_signed(
            program.as_ptr(),
            program.len(),
            strings.as_ptr(),
            strings.len(),
            sign,
            samples.as_mut_ptr(),
            samples.len(),
        )
    };
    settle(returned, ())
}

/// Combines four lists of 64 signed samples, entry by entry, to (x1 + first × x2) + second × (x3 + first × x4). The lists must be
/// independent: each drawn from fresh strings with a fresh sign word.
pub fn combine(
    x1: &[i16],
    x2: &[i16],
    x3: &[i16],
    x4: &[i16],
    first: u32,
    second: u32,
    results: &mut [i32],
) -> Result<(), Refusal> {
    // SAFETY: as in `read`.
    let returned = unsafe {
        raw::corkhollow_combine(
            x1.as_ptr(),
            x1.len(),
            x2.as_ptr(),
            x2.len(),
            x3.as_ptr(),
            x3.len(),
            x4.as_ptr(),
            x4.len(),
            first,
            second,
            results.as_mut_ptr(),
            results.len(),
        )
    };
    settle(returned, ())
}

/// Imports a cumulative table: writes the matrix file of its differences, and tells its length.
pub fn import(table: &[u64], columns: usize, file: &mut [u8]) -> Result<usize, Refusal> {
    let mut length = 0;
    // SAFETY: as in `read`.
    let returned = unsafe {
        raw::corkhollow_import(
            table.as_ptr(),
            table.len(),
            columns,
            file.as_mut_ptr(),
            file.len(),
            &mut length,
        )
    };
    settle(returned, length)
}

/// Exports the cumulative table of a matrix file: how many numbers are at the front of `table`, and the columns.
pub fn export(file: &[u8], table: &mut [u64]) -> Result<(usize, usize), Refusal> {
    let (mut numbers, mut columns) = (0, 0);
    // SAFETY: as in `read`.
    let returned = unsafe {
        raw::corkhollow_export(
            file.as_ptr(),
            file.len(),
            table.as_mut_ptr(),
            table.len(),
            &mut numbers,
            &mut columns,
        )
    };
    settle(returned, (numbers, columns))
}

/// Looks a number up in a cumulative table: the sample, or none for a miss. r must be uniform over 1 to 2^columns: the number of `columns`
/// random bits, and 1 more.
pub fn lookup(table: &[u64], columns: usize, r: u64) -> Result<Option<usize>, Refusal> {
    let mut sample = 0;
    // SAFETY: as in `read`.
    let returned =
        unsafe { raw::corkhollow_lookup(table.as_ptr(), table.len(), columns, r, &mut sample) };
    let sample = (sample != usize::from(MISS)).then_some(sample);
    settle(returned, sample)
}

/// Opens a pool of so many words: sets what each signer has drawn to 0. The buffer is the caller's, and so are the records: lend them to
/// each call as the one before left them.
pub fn pool_open(words: usize, signers: &mut [Signer]) -> Result<(), Refusal> {
    // SAFETY: as in `read`.
    let returned = unsafe { raw::corkhollow_pool_open(words, signers.as_mut_ptr(), signers.len()) };
    settle(returned, ())
}

/// Draws the next q words of a pool for one signer: where in the caller's buffer they start.
pub fn pool_draw(
    words: usize,
    signers: &mut [Signer],
    signer: usize,
    q: usize,
) -> Result<usize, Refusal> {
    let mut start = 0;
    // SAFETY: as in `read`.
    let returned = unsafe {
        raw::corkhollow_pool_draw(
            words,
            signers.as_mut_ptr(),
            signers.len(),
            signer,
            q,
            &mut start,
        )
    };
    settle(returned, start)
}

/// Refills a pool: sets what each signer has drawn to 0. Before this, put fresh random words into the buffer in the place of all that went
/// out.
pub fn pool_refill(words: usize, signers: &mut [Signer]) -> Result<(), Refusal> {
    // SAFETY: as in `read`.
    let returned =
        unsafe { raw::corkhollow_pool_refill(words, signers.as_mut_ptr(), signers.len()) };
    settle(returned, ())
}
