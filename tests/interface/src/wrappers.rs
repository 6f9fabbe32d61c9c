//! The safe functions of the Rust binding, each on a sound input and on a refused one. What they wrap is tried elsewhere: here it shows
//! that they hand everything on in its place.

use crate::corkhollow::{self as binding, Header, Refusal, Run, Signer, Walk};
use crate::trial::{fail, ANSWERS};
use reference::compiler::translate;
use reference::lent::{self, DONE};
use reference::matrix::Matrix;
use reference::pools::Pool;
use std::fmt::Debug;

/// Compares what a safe function answers and leaves with what the reference returns, answers and leaves.
fn same<T: PartialEq + Debug, M: PartialEq + Debug>(
    name: &str,
    (answer, left): (Result<T, Refusal>, M),
    (returned, result, wanted): (u32, T, M),
) -> bool {
    let expected = match returned {
        DONE => Ok(result),
        number => Err(Refusal(number)),
    };
    if answer != expected || left != wanted {
        fail(&format!(
            "difference: {name} of the binding: {answer:?} {left:?}, the reference {expected:?} {wanted:?}"
        ));
    }
    returned == DONE
}

/// One input was sound and the other refused.
fn both(name: &str, one_input: impl Fn(bool) -> bool) {
    if !one_input(true) || one_input(false) {
        fail(&format!(
            "{name} of the binding: not the inputs that are wanted"
        ));
    }
}

/// Tries all of them, and the words of each refusal.
pub fn compare() {
    let sound = Matrix::from_texts(&["10", "01", "01"]);
    let file = sound.encode();
    let program = translate(&sound).encode();
    matrices(&sound, &file);
    let or_less = |sound: bool, bytes: &[u8]| bytes[..bytes.len() - usize::from(!sound)].to_vec();
    both("walk", |sound| walk(&or_less(sound, &file)));
    both("spent", |sound| spent(&or_less(sound, &file)));
    both("string_for", |sound| {
        string_for(&file, if sound { 1 } else { 3 })
    });
    both("compile", |sound| compile(&or_less(sound, &file)));
    both("check", |sound| check(&or_less(sound, &program)));
    both("start", |sound| start(&or_less(sound, &program)));
    both("resume", |sound| {
        resume(&program, if sound { 9 } else { 99 })
    });
    both("slice", |sound| slice(if sound { 2 } else { 193 }));
    both("samples", |sound| samples(if sound { 3 } else { 2 }));
    both("signed_samples", |sound| {
        signed_samples(if sound { 3 } else { 5 })
    });
    both("draw", |sound| draw(&or_less(sound, &program)));
    both("draw_signed", |sound| {
        draw_signed(&or_less(sound, &program))
    });
    both("combine", |sound| {
        combine(if sound { 1_000 } else { 1_001 })
    });
    tables(&file);
    pools();
    overlaps();
    words();
}

fn matrices(sound: &Matrix, file: &[u8]) {
    both("read", |sound| read(file, if sound { 9 } else { 5 }));
    both("write", |is_sound| {
        write(if is_sound { 3 } else { 0 }, &sound.entries)
    });
    both("build", |sound| {
        let weights = if sound { &[1, 5, 3] } else { &[0, 0, 0] };
        let plain = build(weights, false);
        build(weights, true) && plain
    });
}

fn tables(file: &[u8]) {
    both("import", |sound| import(if sound { 2 } else { 1 }));
    both("export", |sound| export(file, if sound { 6 } else { 3 }));
    both("lookup", |sound| {
        let miss = lookup(4, 2);
        lookup(if sound { 3 } else { 5 }, 2) && miss
    });
}

fn read(file: &[u8], lent: usize) -> bool {
    let (mut left, mut wanted) = (vec![7; lent], vec![7; lent]);
    let (mut rows, mut columns) = (0, 0);
    let answer = binding::read(file, &mut left);
    let returned = lent::read(file, &mut wanted, &mut rows, &mut columns);
    same("read", (answer, left), (returned, (rows, columns), wanted))
}

fn write(rows: usize, entries: &[u8]) -> bool {
    let (mut left, mut wanted) = ([7; 20], [7; 20]);
    let mut length = 0;
    let answer = binding::write(rows, 2, entries, &mut left);
    let returned = lent::write(rows, 2, entries, &mut wanted, &mut length);
    same("write", (answer, left), (returned, length, wanted))
}

fn build(weights: &[u32], signed: bool) -> bool {
    let (mut left, mut wanted) = ([7; 20], [7; 20]);
    let mut length = 0;
    let answer = binding::build(weights, 11, signed, &mut left);
    let returned = lent::build(weights, 11, signed, &mut wanted, &mut length);
    same("build", (answer, left), (returned, length, wanted))
}

/// A hit, and a miss that uses all three columns.
fn walk(file: &[u8]) -> bool {
    let missed = Matrix::from_texts(&["100"]).encode();
    let miss = Walk { row: None, used: 3 };
    let answer = binding::walk(&missed, &[0x80]);
    same("walk", (answer, ()), (DONE, miss, ()));
    walk_on(file, &[0xc0])
}

fn walk_on(file: &[u8], string: &[u8]) -> bool {
    let (mut row, mut used) = (0, 0);
    let returned = lent::walk(file, string, &mut row, &mut used);
    let row = (row != usize::from(binding::MISS)).then_some(row);
    let answer = binding::walk(file, string);
    same("walk", (answer, ()), (returned, Walk { row, used }, ()))
}

fn spent(file: &[u8]) -> bool {
    spent_on(file, &strings())
}

fn spent_on(file: &[u8], strings: &[u8]) -> bool {
    let mut total = 0;
    let returned = lent::spent(file, strings, &mut total);
    let answer = binding::spent(file, strings);
    same("spent", (answer, ()), (returned, total, ()))
}

/// A string, and none.
fn string_for(file: &[u8], row: usize) -> bool {
    let zero = Matrix::from_texts(&["0"]).encode();
    string_for_on(&zero, 0) && string_for_on(file, row)
}

fn string_for_on(file: &[u8], row: usize) -> bool {
    let (mut left, mut wanted) = ([7; 3], [7; 3]);
    let mut found = false;
    let answer = binding::string_for(file, row, &mut left);
    let returned = lent::string_for(file, row, &mut wanted, &mut found);
    same("string_for", (answer, left), (returned, found, wanted))
}

fn compile(file: &[u8]) -> bool {
    let (mut left, mut wanted) = (vec![7; 1000], vec![7; 1000]);
    let mut length = 0;
    let answer = binding::compile(file, &mut left);
    let returned = lent::compile(file, &mut wanted, &mut length);
    same("compile", (answer, left), (returned, length, wanted))
}

fn check(program: &[u8]) -> bool {
    let (mut registers, mut inputs, mut outputs, mut rows, mut count) = (0, 0, 0, 0, 0);
    let returned = lent::check(
        program,
        &mut registers,
        &mut inputs,
        &mut outputs,
        &mut rows,
        &mut count,
    );
    let header = Header {
        registers,
        inputs,
        outputs,
        rows,
        count,
    };
    same(
        "check",
        (binding::check(program), ()),
        (returned, header, ()),
    )
}

/// The words on which programs run: inputs, registers, outputs.
const INPUTS: [u64; 2] = [0x0f0f_3333_5555_00ff, 0x1234_5678_9abc_def0];
const REGISTERS: [u64; 20] = [0x7777; 20];
const OUTPUTS: [u64; 4] = [0x5555; 4];

fn start(program: &[u8]) -> bool {
    start_on(program, &INPUTS)
}

fn start_on(program: &[u8], inputs: &[u64]) -> bool {
    let (mut registers, mut outputs) = (REGISTERS, OUTPUTS);
    let answer = binding::start(program, inputs, &mut registers, &mut outputs, 20);
    let left = (registers, outputs);
    let (mut registers, mut outputs) = (REGISTERS, OUTPUTS);
    let (mut position, mut count, mut finished) = (0, 0, false);
    let returned = lent::start(
        program,
        inputs,
        &mut registers,
        &mut outputs,
        20,
        &mut position,
        &mut count,
        &mut finished,
    );
    let run = Run {
        position,
        count,
        finished,
    };
    same(
        "start",
        (answer, left),
        (returned, run, (registers, outputs)),
    )
}

fn resume(program: &[u8], from: u32) -> bool {
    resume_on(program, &INPUTS, from)
}

fn resume_on(program: &[u8], inputs: &[u64], from: u32) -> bool {
    let (mut registers, mut outputs) = (REGISTERS, OUTPUTS);
    let answer = binding::resume(program, inputs, &mut registers, &mut outputs, from, 5);
    let left = (registers, outputs);
    let (mut registers, mut outputs) = (REGISTERS, OUTPUTS);
    let (mut position, mut count, mut finished) = (0, 0, false);
    let returned = lent::resume(
        program,
        inputs,
        &mut registers,
        &mut outputs,
        from,
        5,
        &mut position,
        &mut count,
        &mut finished,
    );
    let run = Run {
        position,
        count,
        finished,
    };
    same(
        "resume",
        (answer, left),
        (returned, run, (registers, outputs)),
    )
}

/// 64 strings of two bits, all of the four in turn.
fn strings() -> Vec<u8> {
    (0..64u8).map(|lane| lane << 6).collect()
}

fn slice(columns: usize) -> bool {
    let (mut left, mut wanted) = ([7; 5], [7; 5]);
    let answer = binding::slice(columns, &strings(), &mut left);
    let returned = lent::slice(columns, &strings(), &mut wanted);
    same("slice", (answer, left), (returned, (), wanted))
}

/// Three output words, of which the lanes spell 0 to 3, with hits and without.
fn outputs() -> Vec<u64> {
    let word = |i: usize| 0x0123_4567_89ab_cdef_u64.rotate_left(7 * i as u32);
    (0..3).map(word).collect()
}

fn samples(rows: usize) -> bool {
    let (mut left, mut wanted) = ([7; 66], [7; 66]);
    let answer = binding::samples(rows, &outputs(), &mut left);
    let returned = lent::samples(rows, &outputs(), &mut wanted);
    same("samples", (answer, left), (returned, (), wanted))
}

const SIGN: u64 = 0xf0f0_1234_5678_00ff;

fn signed_samples(rows: usize) -> bool {
    let (mut left, mut wanted) = ([7; 66], [7; 66]);
    let answer = binding::signed_samples(rows, &outputs(), SIGN, &mut left);
    let returned = lent::signed_samples(rows, &outputs(), SIGN, &mut wanted);
    same("signed_samples", (answer, left), (returned, (), wanted))
}

fn draw(program: &[u8]) -> bool {
    draw_on(program, &strings())
}

fn draw_on(program: &[u8], strings: &[u8]) -> bool {
    let (mut left, mut wanted) = ([7; 66], [7; 66]);
    let answer = binding::draw(program, strings, &mut left);
    let returned = lent::draw(program, strings, &mut wanted);
    same("draw", (answer, left), (returned, (), wanted))
}

fn draw_signed(program: &[u8]) -> bool {
    draw_signed_on(program, &strings())
}

fn draw_signed_on(program: &[u8], strings: &[u8]) -> bool {
    let (mut left, mut wanted) = ([7; 66], [7; 66]);
    let answer = binding::draw_signed(program, strings, SIGN, &mut left);
    let returned = lent::draw_signed(program, strings, SIGN, &mut wanted);
    same("draw_signed", (answer, left), (returned, (), wanted))
}

/// No two lists are alike, and none has two entries alike.
fn combine(first: u32) -> bool {
    let lists = [-127, -63, 1, 63].map(|least| (least..least + 64).collect::<Vec<i16>>());
    combine_on(lists.each_ref().map(Vec::as_slice), first)
}

fn combine_on([x1, x2, x3, x4]: [&[i16]; 4], first: u32) -> bool {
    let (mut left, mut wanted) = ([7; 66], [7; 66]);
    let answer = binding::combine(x1, x2, x3, x4, first, 11, &mut left);
    let returned = lent::combine(x1, x2, x3, x4, first, 11, &mut wanted);
    same("combine", (answer, left), (returned, (), wanted))
}

/// The rows 10, 01 and a miss.
const TABLE: [u64; 3] = [0, 2, 3];

fn import(columns: usize) -> bool {
    let (mut left, mut wanted) = ([7; 20], [7; 20]);
    let mut length = 0;
    let answer = binding::import(&TABLE, columns, &mut left);
    let returned = lent::import(&TABLE, columns, &mut wanted, &mut length);
    same("import", (answer, left), (returned, length, wanted))
}

fn export(file: &[u8], lent: usize) -> bool {
    let (mut left, mut wanted) = (vec![7; lent], vec![7; lent]);
    let (mut numbers, mut columns) = (0, 0);
    let answer = binding::export(file, &mut left);
    let returned = lent::export(file, &mut wanted, &mut numbers, &mut columns);
    same(
        "export",
        (answer, left),
        (returned, (numbers, columns), wanted),
    )
}

fn lookup(r: u64, columns: usize) -> bool {
    let mut sample = 0;
    let returned = lent::lookup(&TABLE, columns, r, &mut sample);
    let found = (sample != usize::from(binding::MISS)).then_some(sample);
    let answer = binding::lookup(&TABLE, columns, r);
    same("lookup", (answer, ()), (returned, found, ()))
}

/// Nine words, of which two signers have drawn one and four.
const POOL: [(u32, u32, u32); 2] = [(2, 5, 1), (3, 9, 4)];

fn pools() {
    both("pool_open", |sound| pool_open(if sound { 5 } else { 4 }));
    both("pool_draw", |sound| pool_draw(if sound { 3 } else { 4 }));
    both("pool_refill", |sound| {
        pool_refill(if sound { 6 } else { 5 })
    });
}

/// The records for the binding, and after a call as the reference has them.
fn bound() -> [Signer; 2] {
    POOL.map(|(reserve, cap, drawn)| Signer {
        reserve,
        cap,
        drawn,
    })
}

fn numbers(signers: [Signer; 2]) -> Vec<(u32, u32, u32)> {
    let numbers = |signer: Signer| (signer.reserve, signer.cap, signer.drawn);
    signers.map(numbers).to_vec()
}

fn left(pool: &Pool) -> Vec<(u32, u32, u32)> {
    let signers = pool.signers.iter();
    signers.map(|s| (s.reserve, s.cap, s.drawn)).collect()
}

fn pool_open(words: usize) -> bool {
    let (mut signers, mut pool) = (bound(), Pool::of(words, &POOL));
    let answer = binding::pool_open(words, &mut signers);
    let returned = lent::pool_open(words, &mut pool.signers);
    same(
        "pool_open",
        (answer, numbers(signers)),
        (returned, (), left(&pool)),
    )
}

fn pool_draw(q: usize) -> bool {
    let (mut signers, mut pool) = (bound(), Pool::of(9, &POOL));
    let mut start = 0;
    let answer = binding::pool_draw(9, &mut signers, 1, q);
    let returned = lent::pool_draw(9, &mut pool.signers, 1, q, &mut start);
    same(
        "pool_draw",
        (answer, numbers(signers)),
        (returned, start, left(&pool)),
    )
}

fn pool_refill(words: usize) -> bool {
    let (mut signers, mut pool) = (bound(), Pool::of(words, &POOL));
    let answer = binding::pool_refill(words, &mut signers);
    let returned = lent::pool_refill(words, &mut pool.signers);
    same(
        "pool_refill",
        (answer, numbers(signers)),
        (returned, (), left(&pool)),
    )
}

/// Buffers that are only read may overlap: here a file is also the string, the strings or the input words that go with it, and a list of
/// signed samples is all four, or parts of it are.
fn overlaps() {
    let table = Matrix::from_texts(&["10011010", "00110101", "00100001"]);
    let file = table.encode();
    done(walk_on(&file, &file));
    let long = Matrix::from_texts(&["00000011"; 64]).encode();
    done(spent_on(&long, &long));
    let program = translate(&table).encode();
    done(draw_on(&program, &program));
    done(draw_signed_on(&program, &program));
    let mut words = vec![0; program.len().div_ceil(8)];
    // SAFETY: the words have these bytes, and any bytes are words.
    unsafe {
        let bytes: *mut u8 = words.as_mut_ptr().cast();
        bytes.copy_from_nonoverlapping(program.as_ptr(), program.len());
        let program = std::slice::from_raw_parts(bytes, program.len());
        done(start_on(program, &words));
        done(resume_on(program, &words, 9));
    }
    let list: Vec<i16> = (-40..40).collect();
    done(combine_on([&list; 4], 3));
    done(combine_on([&list[1..], &list, &list[16..], &list[..64]], 3));
}

/// The reference took the buffers.
fn done(taken: bool) {
    if !taken {
        fail("overlaps: not the inputs that are wanted");
    }
}

/// Each refusal has words of its own.
fn words() {
    let numbers = 0..ANSWERS as u32;
    let mut texts: Vec<String> = numbers.map(|number| text(&Refusal(number))).collect();
    texts.sort();
    texts.dedup();
    if texts.len() != ANSWERS {
        fail("two refusals of the binding have the same words");
    }
}

/// The words of a refusal, without its number.
fn text(refusal: &Refusal) -> String {
    let text = refusal.to_string();
    let words = text.split_once(": ");
    words.map_or(text.clone(), |(_, words)| words.to_string())
}
