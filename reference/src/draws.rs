//! Drawing in one call: 01's check, slice, start and samples, with working words that no caller
//! lends, and with the rows of the program's own header (02, order 10).

use crate::lanes::{check_strings, samples_of, signed_samples_of, words_of, LANES};
use crate::machine::start;
use crate::program::check;
use crate::refusal::{refuse, Answer, BUFFER};

/// Draw: the samples of 64 strings, laid into a buffer of `samples_lent` bytes.
pub fn draw(program: &[u8], strings: &[u8], samples_lent: usize) -> Answer<Vec<u8>> {
    let (rows, outputs) = outputs_for(program, strings, samples_lent)?;
    Ok(samples_of(rows, &outputs))
}

/// Draw signed: the signed samples of 64 strings, laid into a buffer of `samples_lent` numbers.
pub fn draw_signed(
    program: &[u8],
    strings: &[u8],
    sign: u64,
    samples_lent: usize,
) -> Answer<Vec<i16>> {
    let (rows, outputs) = outputs_for(program, strings, samples_lent)?;
    Ok(signed_samples_of(rows, &outputs, sign))
}

/// The program's rows, and the outputs of a whole run on the strings: the program's checks, 13 and 5
/// for the strings, 13 for the samples.
fn outputs_for(program: &[u8], strings: &[u8], samples_lent: usize) -> Answer<(usize, Vec<u64>)> {
    let header = check(program)?;
    let strings = check_strings(header.inputs, strings)?;
    refuse(BUFFER, samples_lent < LANES)?;
    let words = words_of(header.inputs, strings);
    let run = start(program, &words, header.registers, header.outputs, u32::MAX)?;
    Ok((header.rows, run.outputs))
}
