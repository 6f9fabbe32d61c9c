//! 02, order 10: rows in program headers and in the reading of samples; each refusal around them with
//! its neighbours, and lanes whose numbers are next to the rows.

use super::cases::{check, draw, draw_signed, resume, samples, signed_samples, start};
use super::damaged::all_uses_of_program;
use super::line::Line;
use crate::damage::{edited, Edit};
use crate::lanes::LANES;
use crate::program::{value_bits, Header, Instruction, Operation, Program, VALUE_BIT_CASES};
use crate::program::{MOST_OUTPUTS, MOST_ROWS, PROGRAM_HEADER};
use crate::random::{self, Random};

/// Rows that no program has: none, the next to the most, and ones of which 8, 16, 32 or 63 bits are
/// within; with the output words that those bits suit, and the next also with those of 8 value bits.
const OUTSIDE: [(usize, usize); 10] = [
    (0, 1),
    (129, 8),
    (129, 9),
    (256 + 1, 1),
    (256 + 128, 8),
    (65_536 + 1, 1),
    (65_536 + 3, 3),
    ((1 << 32) + 1, 1),
    ((1 << 63) + 65, 8),
    (usize::MAX, 8),
];

/// Signs of which any two neighbours differ, and any two lanes that are 32 apart.
const SIGN: u64 = 0x5555_5555_aaaa_aaaa;

/// The fewest and the most rows of each case of 02, order 6.
fn ends() -> Vec<usize> {
    let mut ends: Vec<usize> = VALUE_BIT_CASES
        .iter()
        .flat_map(|case| [case.0, case.1])
        .collect();
    ends.dedup();
    ends
}

/// The cases that are the same at every scale.
pub fn fixed(put: &mut dyn FnMut(Line)) {
    headers(put);
    old_headers(put);
    header_order(put);
    words_that_suit(put);
    words_that_do_not(put);
    draws(put);
    runs(put);
}

/// ONES 0 and every output from register 0, in a header that says this of rows and outputs.
fn program_of(rows: usize, outputs: usize) -> Vec<u8> {
    let mut instructions = vec![Instruction::new(Operation::Ones, &[0])];
    for output in 0..outputs {
        instructions.push(Instruction::new(Operation::Output, &[output, 0]));
    }
    let header = Header {
        registers: 1,
        inputs: 1,
        outputs,
        rows,
        count: instructions.len(),
    };
    Program {
        header,
        instructions,
    }
    .encode()
}

/// Rows at the ends of each case with as many outputs as they take, the fewest rows with one fewer and
/// the most with one more, as the cases next to theirs have; and rows outside, with the outputs that
/// their low bits suit.
fn headers(put: &mut dyn FnMut(Line)) {
    for rows in ends() {
        put(check(&program_of(rows, value_bits(rows) + 1)));
    }
    for (fewest, most, bits) in VALUE_BIT_CASES {
        put(check(&program_of(fewest, bits)));
        put(check(&program_of(most, bits + 2)));
    }
    let in_16_bits = |&&(rows, _): &&(usize, usize)| rows < 65_536;
    for &(rows, outputs) in OUTSIDE.iter().filter(in_16_bits) {
        put(check(&program_of(rows, outputs)));
    }
    put(check(&program_of(65_535, 8)));
    all_uses_of_program(&program_of(129, 8), put);
    all_uses_of_program(&program_of(3, 2), put);
}

/// A program as it was before, its header of 14 bytes without rows.
fn old_program() -> Vec<u8> {
    let file = program_of(1, 1);
    let edits = [
        Edit::Remove { at: 10, length: 2 },
        Edit::Field { at: 0, value: 14 },
    ];
    edited(&file, &edits)
}

/// The old header: 4 where 16 bytes are there, and 1 where not.
fn old_headers(put: &mut dyn FnMut(Line)) {
    let old = old_program();
    all_uses_of_program(&old, put);
    for length in 14..=17 {
        put(check(&old[..length]));
    }
}

/// Every check of a header with the next: 1, 2, 1, 4, 3, with all that comes after it at fault too.
fn header_order(put: &mut dyn FnMut(Line)) {
    let faulty = |length: u16, kind: u16| {
        let fields = [length, kind, 0, 193, 9, 129, 0xffff, 0xffff];
        fields.map(u16::to_le_bytes).concat()
    };
    for (kind, end) in [(32, 3), (32, 4), (32, 15), (32, 16), (16, 4), (16, 15)] {
        put(check(&faulty(14, kind)[..end]));
    }
    for length in [0, 14, 15, 16, 17, 256 + 16, 65_535] {
        put(check(&faulty(length, 16)));
    }
    // Header length 15 with all else in order, and rows alone at fault before an instruction's 7.
    let file = program_of(3, 3);
    let field = |at: usize, value: u16| Edit::Field { at, value };
    put(check(&edited(&file, &[field(0, 15)])));
    let of_7 = field(PROGRAM_HEADER + 2, 8);
    for rows in [0, 2, 5, 129] {
        put(check(&edited(&file, &[field(10, rows), of_7.clone()])));
    }
    put(check(&edited(&file, &[of_7])));
}

/// Output words that suit so many rows. Lane j spells j, counted around where there are fewer
/// numbers; with 7 value bits 64 + j. Its bit of output 0 is that of `hits`.
fn spelling(rows: usize, hits: u64) -> Vec<u64> {
    let bits = value_bits(rows);
    let bit = |t: usize, lane: usize| ((lane as u64 + 64) >> t & 1) << lane;
    let words = (0..bits).map(|t| (0..LANES).map(|lane| bit(t, lane)).sum());
    std::iter::once(hits).chain(words).collect()
}

/// Every number that the words can spell, or with 7 value bits the upper half of them: so rows - 1,
/// rows, and 2^k - 1. Each with both signs, by way of two lanes or of two lines.
fn words_that_suit(put: &mut dyn FnMut(Line)) {
    for rows in ends() {
        let words = spelling(rows, u64::MAX);
        put(samples(rows, &words, LANES));
        put(signed_samples(rows, &words, SIGN, LANES));
        if rows > 32 {
            put(signed_samples(rows, &words, !SIGN, LANES));
        }
    }
    // Lanes that miss by output 0, whatever they spell.
    put(samples(128, &spelling(128, 0xffff_fff0_7fff_ff0f), LANES));
    put(signed_samples(5, &spelling(5, 0x0f), SIGN, LANES));
}

/// Rows outside; of the fewest rows of each case one word less, and of the most one more; every
/// number of words for 5 rows; and 3 before 13.
fn words_that_do_not(put: &mut dyn FnMut(Line)) {
    for (rows, outputs) in OUTSIDE {
        let words = vec![SIGN; outputs];
        put(samples(rows, &words, LANES));
        put(signed_samples(rows, &words, SIGN, LANES));
    }
    for (fewest, most, bits) in VALUE_BIT_CASES {
        put(samples(fewest, &vec![SIGN; bits], LANES));
        put(signed_samples(most, &vec![SIGN; bits + 2], 0, LANES));
    }
    put(samples(129, &[SIGN; 8], 63));
    put(signed_samples(0, &[], 0, 0));
    for outputs in 0..=10 {
        put(signed_samples(5, &vec![SIGN; outputs], 0, 63));
    }
    put(samples(5, &[SIGN; 5], 63));
    put(samples(5, &[SIGN; 4], 63));
}

/// A program that hands its inputs through: output i is input i.
fn through(rows: usize) -> Program {
    let outputs = value_bits(rows) + 1;
    let pair = |i: usize| {
        [
            Instruction::new(Operation::Input, &[0, i]),
            Instruction::new(Operation::Output, &[i, 0]),
        ]
    };
    let header = Header {
        registers: 1,
        inputs: outputs,
        outputs,
        rows,
        count: 2 * outputs,
    };
    Program {
        header,
        instructions: (0..outputs).flat_map(pair).collect(),
    }
}

/// 64 strings of one byte for it: each lane hits, and spells as above, lowest bit first.
fn strings_through(rows: usize) -> Vec<u8> {
    let mask = u8::MAX << (7 - value_bits(rows));
    let string = |lane: u8| (0x80 | (lane + 64).reverse_bits() >> 1) & mask;
    (0..LANES as u8).map(string).collect()
}

/// Programs that no matrix compiles to, whose outputs spell numbers not below their rows.
fn draws(put: &mut dyn FnMut(Line)) {
    for rows in ends() {
        let (file, strings) = (through(rows).encode(), strings_through(rows));
        if rows % 2 == 0 {
            put(draw(&file, &strings, LANES));
        } else {
            put(draw_signed(&file, &strings, SIGN, LANES));
        }
    }
    let (file, strings) = (through(5).encode(), strings_through(5));
    put(draw(&file, &strings, LANES));
    put(draw_signed(&file, &strings, !SIGN, LANES));
    put(draw(&file, &strings, 63));
}

/// A run does not use rows: outputs are what they are, whatever numbers they spell.
fn runs(put: &mut dyn FnMut(Line)) {
    for rows in [3, 4] {
        let file = through(rows).encode();
        let words = spelling(rows, u64::MAX);
        put(start(&file, &words, 1, 3, u32::MAX));
        put(resume(&file, &words, &[7], &[8, 9, 10], 2, 3));
    }
}

/// Every number of rows with every number of outputs in a header, and with every number of words; and
/// every number that the words can spell.
pub fn thorough(put: &mut dyn FnMut(Line)) {
    for rows in 0..=MOST_ROWS + 2 {
        for outputs in 0..=MOST_OUTPUTS + 2 {
            put(check(&program_of(rows, outputs)));
            put(samples(rows, &vec![SIGN; outputs], LANES));
            put(signed_samples(rows, &vec![SIGN; outputs], !SIGN, LANES));
        }
    }
    for rows in 1..=MOST_ROWS {
        let mut words = spelling(rows, u64::MAX);
        put(samples(rows, &words, LANES));
        put(signed_samples(rows, &words, SIGN, LANES));
        put(draw(&through(rows).encode(), &strings_through(rows), LANES));
        // The lower half of the numbers of 7 bits.
        if let Some(highest) = words.get_mut(7) {
            *highest = 0;
            put(samples(rows, &words, LANES));
        }
    }
}

/// Any number of rows: any within, next to the ends of a case, or outside.
fn some_rows(random: &mut Random) -> usize {
    let (any, end) = (random.between(1, MOST_ROWS), random.pick(&ends()));
    let (next, outside) = (end + random.below(3) - 1, random.pick(&OUTSIDE).0);
    random.pick(&[any, any, end, end, next, outside])
}

/// Random cases: words of any content with rows that they suit and that they may not, drawn and read;
/// and headers that say this of rows and outputs.
pub fn round(random: &mut Random, put: &mut dyn FnMut(Line)) {
    for _ in 0..2 {
        let outputs = random.between(1, MOST_OUTPUTS);
        let mut words = random.words(outputs);
        words[0] |= random.word();
        let suiting = random::rows_for(random, outputs);
        for rows in [suiting, some_rows(random)] {
            put(samples(rows, &words, 64 - random.below(2)));
            put(signed_samples(rows, &words, random.word(), 64));
        }
        let rows = some_rows(random) & 0xffff;
        put(check(&program_of(rows, random.between(1, MOST_OUTPUTS))));
        let file = through(suiting).encode();
        let strings = random::packed_strings(random, outputs, LANES);
        put(draw(&file, &strings, LANES));
    }
}
