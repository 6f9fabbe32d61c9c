//! Every function of include/corkhollow.rs on 01's example, the rows 10, 01, 01, on one row 1 of one column, or on numbers; those that take
//! columns also on the most. What it must answer is worked out by hand from 01 and 02, so that this needs nothing but `core`.

use crate::corkhollow::{
    self, Header, Refusal, Run, Signer, Walk, COMBINED_MISS, LANES, MISS, SIGNED_MISS,
};

/// Says which function answered something else.
pub type Checked = Result<(), &'static str>;

/// The rows 10, 01, 01 as a file, and as entries.
const FILE: [u8; 11] = [0x0b, 0, 0x20, 0, 3, 0, 2, 0, 0x80, 0x40, 0x40];
const ENTRIES: [u8; 6] = [1, 0, 0, 1, 0, 1];

/// The strings 00 and 01 give 0, 10 gives 2, 11 gives 1.
const GIVES: [u8; 4] = [0, 0, 2, 1];

/// 02, order 1: 00 and 01 hit in column 0, 10 and 11 in column 1.
const USES: [usize; 4] = [1, 1, 2, 2];

/// 01, "Translation", with k = 2: registers B, N, H, two of V, three of X, six of Y. Instructions: 4 at the beginning; 6 for column 0, in
/// which row 0 is set and one place stays open; 8 for column 1, in which rows 2 and 1 are set and none stays open; 3 at the end.
const HEADER: Header = Header {
    registers: 14,
    inputs: 2,
    outputs: 3,
    rows: 3,
    count: 21,
};

/// One row 1 of one column: string 0 gives 0, string 1 misses.
const ROW_1: [u8; 9] = [9, 0, 0x20, 0, 1, 0, 1, 0, 0x80];

/// One row 0 of one column: both strings miss.
const ROW_0: [u8; 9] = [9, 0, 0x20, 0, 1, 0, 1, 0, 0x00];

const SIGN: u64 = 0x0123_4567_89ab_cdef;

fn must(name: &'static str, holds: bool) -> Checked {
    if holds {
        Ok(())
    } else {
        Err(name)
    }
}

/// The first one that answers something else.
pub fn all() -> Checked {
    files()?;
    walks()?;
    bits_spent()?;
    wanted_rows()?;
    let mut program = [0; 512];
    let length = corkhollow::compile(&FILE, &mut program).map_err(|_| "compile")?;
    let program = &program[..length];
    must("check", corkhollow::check(program) == Ok(HEADER))?;
    in_one_call(program)?;
    in_parts(program)?;
    headers(program)?;
    beyond_the_rows()?;
    a_miss()?;
    wide_bells()?;
    cumulative_tables()?;
    looked_up()?;
    the_most_columns()?;
    pools()?;
    must("refusal", a_refusal() == Err(Refusal(1)))
}

/// A file cut short.
pub fn a_refusal() -> Result<Walk, Refusal> {
    corkhollow::walk(&FILE[..10], &[0])
}

fn files() -> Checked {
    let mut file = [0; 11];
    // weights 2, 1, 1 of 4 are the rows 10, 01, 01 of 2 columns
    let length = corkhollow::build(&[2, 1, 1], 2, false, &mut file);
    must("build", length == Ok(11) && file == FILE)?;
    for_both_uses()?;
    let mut entries = [7; 6];
    let sizes = corkhollow::read(&FILE, &mut entries);
    must("read", sizes == Ok((3, 2)) && entries == ENTRIES)?;
    let mut file = [0; 11];
    let length = corkhollow::write(3, 2, &ENTRIES, &mut file);
    must("write", length == Ok(11) && file == FILE)
}

/// 02, order 5: of weights 1, 1, 1 and 2 columns the rows are 01, 01, 01 for plain use, and 00, 01, 01 for signed use, where S is 5.
fn for_both_uses() -> Checked {
    for (signed, first) in [(false, 0x40), (true, 0x00)] {
        let mut file = [7; 12];
        let length = corkhollow::build(&[1, 1, 1], 2, signed, &mut file);
        let wanted = [0x0b, 0, 0x20, 0, 3, 0, 2, 0, first, 0x40, 0x40, 7];
        must("build", length == Ok(11) && file == wanted)?;
        let none = corkhollow::build(&[0, 0], 2, signed, &mut file);
        must("build", none == Err(Refusal(11)) && file == wanted)?;
        let short = corkhollow::build(&[1, 1, 1], 2, signed, &mut file[..10]);
        must("build", short == Err(Refusal(13)) && file == wanted)?;
    }
    Ok(())
}

fn walks() -> Checked {
    for string in 0..4 {
        let walked = corkhollow::walk(&FILE, &[(string as u8) << 6]);
        let row = Some(usize::from(GIVES[string]));
        let used = USES[string];
        must("walk", walked == Ok(Walk { row, used }))?;
    }
    // the miss has used the one column
    let walked = corkhollow::walk(&ROW_1, &[0x80]);
    must("walk", walked == Ok(Walk { row: None, used: 1 }))
}

fn bits_spent() -> Checked {
    // the four strings in turn use 1 + 1 + 2 + 2, 16 times
    must("spent", corkhollow::spent(&FILE, &strings(2)) == Ok(96))?;
    // 32 strings hit in the one column, and 32 miss
    must("spent", corkhollow::spent(&ROW_1, &strings(1)) == Ok(64))?;
    let short = corkhollow::spent(&FILE, &strings(2)[1..]);
    must("spent", short == Err(Refusal(13)))
}

/// 02, order 7: of the two strings that give 0 the smaller is 00, and a row 0 has none; 1, 3 and 13, also where there is none.
fn wanted_rows() -> Checked {
    for (row, string) in [(0, 0x00), (1, 0xc0), (2, 0x80)] {
        let mut left = [7; 2];
        let found = corkhollow::string_for(&FILE, row, &mut left);
        must("string_for", found == Ok(true) && left == [string, 7])?;
    }
    let mut left = [7; 2];
    let none = corkhollow::string_for(&ROW_0, 0, &mut left);
    must("string_for", none == Ok(false) && left == [7; 2])?;
    for (file, row, room, number) in [
        (&FILE[..10], 0, 1, 1),
        (&FILE, 3, 1, 3),
        (&FILE, 3, 0, 3),
        (&FILE, 2, 0, 13),
        (&ROW_0, 0, 0, 13),
    ] {
        let refused = corkhollow::string_for(file, row, &mut left[..room]);
        must(
            "string_for",
            refused == Err(Refusal(number)) && left == [7; 2],
        )?;
    }
    Ok(())
}

/// All the strings of so many bits in turn, one a lane.
fn strings(bits: u32) -> [u8; LANES] {
    core::array::from_fn(|lane| (lane as u8) << (8 - bits))
}

/// What the lanes must give, plain and signed.
fn plain() -> [u8; LANES] {
    core::array::from_fn(|lane| GIVES[lane % 4])
}

fn signed() -> [i16; LANES] {
    core::array::from_fn(|lane| {
        let sample = i16::from(GIVES[lane % 4]);
        if SIGN >> lane & 1 == 1 {
            -sample
        } else {
            sample
        }
    })
}

fn in_one_call(program: &[u8]) -> Checked {
    let mut samples = [7; LANES];
    let drawn = corkhollow::draw(program, &strings(2), &mut samples);
    must("draw", drawn == Ok(()) && samples == plain())?;
    let mut samples = [7; LANES];
    let drawn = corkhollow::draw_signed(program, &strings(2), SIGN, &mut samples);
    must("draw_signed", drawn == Ok(()) && samples == signed())
}

/// The same batch by slicing, a run that is stopped and resumed, and reading.
fn in_parts(program: &[u8]) -> Checked {
    let mut words = [7; 2];
    let sliced = corkhollow::slice(2, &strings(2), &mut words);
    // four strings in turn: their first bits are 0, 0, 1, 1, their second 0, 1, 0, 1, from the lowest lane up
    let wanted = [0xcccc_cccc_cccc_cccc, 0xaaaa_aaaa_aaaa_aaaa];
    must("slice", sliced == Ok(()) && words == wanted)?;
    let (mut registers, mut outputs) = ([7; 14], [7; 3]);
    let stopped = corkhollow::start(program, &words, &mut registers, &mut outputs, 10);
    must("start", stopped == Ok(run(10, 10, false)))?;
    let ended = corkhollow::resume(program, &words, &mut registers, &mut outputs, 10, 99);
    must("resume", ended == Ok(run(21, 11, true)))?;
    // all lanes hit; of the samples 0, 0, 2, 1 the lower bits are 0, 0, 0, 1 and the higher 0, 0, 1, 0
    let wanted = [u64::MAX, 0x8888_8888_8888_8888, 0x4444_4444_4444_4444];
    must("resume", outputs == wanted)?;
    let mut samples = [7; LANES];
    let read = corkhollow::samples(3, &outputs, &mut samples);
    must("samples", read == Ok(()) && samples == plain())?;
    let mut samples = [7; LANES];
    let read = corkhollow::signed_samples(3, &outputs, SIGN, &mut samples);
    must("signed_samples", read == Ok(()) && samples == signed())
}

fn run(position: u32, count: u32, finished: bool) -> Run {
    Run {
        position,
        count,
        finished,
    }
}

/// 02, order 10: the header is length 16, kind 16, registers, inputs, outputs, rows and the count. Of three outputs 3 and 4 are the rows.
/// Another length is 4, whatever the rows are; then rows outside or with other outputs are 3; and 15 bytes are 1.
fn headers(program: &[u8]) -> Checked {
    let header = [16, 0, 16, 0, 14, 0, 2, 0, 3, 0, 3, 0, 21, 0, 0, 0];
    must("compile", program[..16] == header)?;
    let mut file = [0; 512];
    let file = &mut file[..program.len()];
    file.copy_from_slice(program);
    file[10] = 4;
    let header = Header { rows: 4, ..HEADER };
    must("check", corkhollow::check(file) == Ok(header))?;
    for (length, rows, number) in [
        (14, 3, 4),
        (14, 0, 4),
        (17, 129, 4),
        (16, 0, 3),
        (16, 2, 3),
        (16, 5, 3),
        (16, 129, 3),
    ] {
        (file[0], file[10]) = (length, rows);
        must("check", corkhollow::check(file) == Err(Refusal(number)))?;
        must("check", corkhollow::check(&file[..15]) == Err(Refusal(1)))?;
    }
    Ok(())
}

/// The lanes spell 0, 1, 2, 3 in turn, and all hit: of three rows the last is a miss, whatever its sign, and of four it is 3.
const SPELT: [u64; 3] = [u64::MAX, 0xaaaa_aaaa_aaaa_aaaa, 0xcccc_cccc_cccc_cccc];

fn beyond_the_rows() -> Checked {
    for (rows, last, signed_last) in [(3, MISS, SIGNED_MISS), (4, 3, -3)] {
        let mut samples = [7; 65];
        let read = corkhollow::samples(rows, &SPELT, &mut samples);
        let all = samples[..64].chunks(4).all(|four| four == [0, 1, 2, last]);
        must("samples", read == Ok(()) && all && samples[64] == 7)?;
        let mut samples = [7; 65];
        let read = corkhollow::signed_samples(rows, &SPELT, u64::MAX, &mut samples);
        let gives = [0, -1, -2, signed_last];
        let all = samples[..64].chunks(4).all(|four| four == gives);
        must("signed_samples", read == Ok(()) && all && samples[64] == 7)?;
    }
    no_rows()
}

/// 3 for rows outside 1 to 128, also where 32 bits of them are not, and for rows that take more or fewer words; then 13.
fn no_rows() -> Checked {
    let large = u32::MAX as usize + 1;
    for (rows, lent, number) in [
        (0, 64, 3),
        (2, 64, 3),
        (5, 64, 3),
        (129, 64, 3),
        (large + 3, 64, 3),
        (usize::MAX, 64, 3),
        (2, 63, 3),
        (3, 63, 13),
    ] {
        let mut samples = [7; 64];
        let read = corkhollow::samples(rows, &SPELT, &mut samples[..lent]);
        must(
            "samples",
            read == Err(Refusal(number)) && samples == [7; 64],
        )?;
        let mut samples = [7; 64];
        let read = corkhollow::signed_samples(rows, &SPELT, SIGN, &mut samples[..lent]);
        must(
            "signed_samples",
            read == Err(Refusal(number)) && samples == [7; 64],
        )?;
    }
    Ok(())
}

/// Every second lane misses.
fn a_miss() -> Checked {
    let mut program = [0; 512];
    let length = corkhollow::compile(&ROW_1, &mut program).map_err(|_| "compile")?;
    let (mut samples, mut signed) = ([7; LANES], [7; LANES]);
    let drawn = corkhollow::draw(&program[..length], &strings(1), &mut samples);
    must(
        "draw",
        drawn == Ok(()) && samples.chunks(2).all(|two| two == [0, MISS]),
    )?;
    let drawn = corkhollow::draw_signed(&program[..length], &strings(1), SIGN, &mut signed);
    must(
        "draw_signed",
        drawn == Ok(()) && signed.chunks(2).all(|two| two == [0, SIGNED_MISS]),
    )
}

/// What a call leaves of 64 results that are 7 before, where every lane has these four entries.
fn combined(entries: [i16; 4], first: u32, second: u32) -> (Result<(), Refusal>, [i32; LANES]) {
    let [x1, x2, x3, x4] = entries.map(|entry| [entry; LANES]);
    let mut results = [7; LANES];
    let answer = corkhollow::combine(&x1, &x2, &x3, &x4, first, second, &mut results);
    (answer, results)
}

/// 02, order 2: (x1 + first × x2) + second × (x3 + first × x4), 14, 13 and 5.
fn wide_bells() -> Checked {
    for (entries, first, second, result) in [
        ([5, -2, 7, 1], 3, 11, 109),             // (5 - 6) + 11 × (7 + 3)
        ([2, 5, -4, 1], 11, 3, 78),              // (2 + 55) + 3 × (-4 + 11)
        ([127; 4], 1_000, 1_000, 127_254_127),   // 127,127 + 1,000 × 127,127
        ([-127; 4], 1_000, 1_000, -127_254_127), // and the opposite
        ([5, SIGNED_MISS, 7, 1], 3, 11, COMBINED_MISS),
    ] {
        let wanted = (Ok(()), [result; LANES]);
        must("combine", combined(entries, first, second) == wanted)?;
    }
    for (entries, first, second, number) in [
        ([5, -2, 7, 1], 0, 11, 14),
        ([5, -2, 7, 1], 3, 1_001, 14),
        ([5, -2, 7, 128], 3, 11, 5),
    ] {
        let wanted = (Err(Refusal(number)), [7; LANES]);
        must("combine", combined(entries, first, second) == wanted)?;
    }
    let (list, mut results) = ([1; LANES], [7; LANES]);
    let short = corkhollow::combine(&list, &list[1..], &list, &list, 3, 11, &mut results);
    must("combine", short == Err(Refusal(13)))?;
    let short = corkhollow::combine(&list, &list, &list, &list, 3, 11, &mut results[1..]);
    let untouched = results == [7; LANES];
    must("combine", short == Err(Refusal(13)) && untouched)
}

/// 02, order 4: the rows 10, 01, 01 add up to 2, 3, 4.
const TABLE: [u64; 4] = [0, 2, 3, 4];

/// What import leaves of a file of which every byte is 7 before.
fn imported(table: &[u64], columns: usize) -> (Result<usize, Refusal>, [u8; 12]) {
    let mut file = [7; 12];
    (corkhollow::import(table, columns, &mut file), file)
}

/// The table as a file, and back; 3, 15, 16 and 13.
fn cumulative_tables() -> Checked {
    let (length, file) = imported(&TABLE, 2);
    must(
        "import",
        length == Ok(11) && file[..11] == FILE && file[11] == 7,
    )?;
    for (table, columns, number) in [
        (&TABLE[..1], 2, 3),
        (&TABLE, 64, 3),
        (&[1, 2, 3, 4], 2, 15),
        (&[0, 2, 1, 4], 2, 15),
        (&TABLE, 1, 15),
        (&[0, 0, 4, 4], 2, 16),
    ] {
        let wanted = (Err(Refusal(number)), [7; 12]);
        must("import", imported(table, columns) == wanted)?;
    }
    let mut file = [7; 10];
    let short = corkhollow::import(&TABLE, 2, &mut file);
    must("import", short == Err(Refusal(13)) && file == [7; 10])?;
    let mut table = [7; 5];
    let sizes = corkhollow::export(&FILE, &mut table);
    must("export", sizes == Ok((4, 2)) && table == [0, 2, 3, 4, 7])?;
    let mut table = [7; 3];
    let short = corkhollow::export(&FILE, &mut table);
    must("export", short == Err(Refusal(13)) && table == [7; 3])?;
    must(
        "export",
        corkhollow::export(&FILE[..10], &mut table) == Err(Refusal(1)),
    )
}

/// 1 and 2 are sample 0, 3 is 1, 4 is 2; without the last row, 4 misses.
fn looked_up() -> Checked {
    for (r, sample) in [(1, 0), (2, 0), (3, 1), (4, 2)] {
        must(
            "lookup",
            corkhollow::lookup(&TABLE, 2, r) == Ok(Some(sample)),
        )?;
    }
    must("lookup", corkhollow::lookup(&TABLE[..3], 2, 4) == Ok(None))?;
    for r in [0, 5] {
        must(
            "lookup",
            corkhollow::lookup(&TABLE, 2, r) == Err(Refusal(3)),
        )?;
    }
    must(
        "lookup",
        corkhollow::lookup(&TABLE, 1, 1) == Err(Refusal(15)),
    )?;
    must(
        "lookup",
        corkhollow::lookup(&[0, 4], 2, 1) == Err(Refusal(16)),
    )
}

/// 02, order 8: one row of 192 columns, set in the last.
const LAST_OF_192: [u8; 32] = [
    32, 0, 32, 0, 1, 0, 192, 0, 0, 0, 0, 0, 0, 0, 0, 0, 0, 0, 0, 0, 0, 0, 0, 0, 0, 0, 0, 0, 0, 0,
    0, 1,
];

/// All zeros hit the row in the last column, and a 1 and then zeros miss; 193 columns are 3.
fn the_most_columns() -> Checked {
    let (columns, inputs) = (corkhollow::COLUMNS, corkhollow::INPUTS);
    must("limits", (columns, inputs) == (192, 192))?;
    must("limits", corkhollow::INSTRUCTIONS == 262_144)?;
    let (mut entries, mut file) = ([0; 192], [7; 33]);
    entries[191] = 1;
    let length = corkhollow::write(1, 192, &entries, &mut file);
    let same = file[..32] == LAST_OF_192 && file[32] == 7;
    must("write", length == Ok(32) && same)?;
    for (first, row) in [(0x00, Some(0)), (0x80, None)] {
        let mut string = [0; 24];
        string[0] = first;
        let walked = corkhollow::walk(&LAST_OF_192, &string);
        must("walk", walked == Ok(Walk { row, used: 192 }))?;
    }
    let total = corkhollow::spent(&LAST_OF_192, &[0; 64 * 24]);
    must("spent", total == Ok(12_288))?;
    let mut string = [7; 24];
    let found = corkhollow::string_for(&LAST_OF_192, 0, &mut string);
    must("string_for", found == Ok(true) && string == [0; 24])?;
    let built = corkhollow::build(&[1], 193, false, &mut [0; 64]);
    must("build", built == Err(Refusal(3)))?;
    the_most_columns_drawn()
}

/// Lane 1 alone misses.
fn the_most_columns_drawn() -> Checked {
    // a column has at most six instructions of at most ten bytes
    let mut program = [0; 192 * 60 + 64];
    let length = corkhollow::compile(&LAST_OF_192, &mut program);
    let length = length.map_err(|_| "compile")?;
    let mut strings = [0; 64 * 24];
    strings[24] = 0x80;
    let (mut samples, mut gives) = ([7; LANES], [0; LANES]);
    gives[1] = MISS;
    let drawn = corkhollow::draw(&program[..length], &strings, &mut samples);
    must("draw", drawn == Ok(()) && samples == gives)?;
    let (mut words, mut wanted) = ([7; 193], [0; 193]);
    (wanted[0], wanted[192]) = (2, 7);
    let sliced = corkhollow::slice(192, &strings, &mut words);
    must("slice", sliced == Ok(()) && words == wanted)?;
    let wider = corkhollow::slice(193, &[0; 64 * 25], &mut words);
    must("slice", wider == Err(Refusal(3)) && words == wanted)
}

/// 02, order 9: two signers, sure of 2 and 3 words, of which so many are drawn; signer 1 may not have more than its 3.
fn signers(one: u32, other: u32) -> [Signer; 2] {
    [(2, 9, one), (3, 3, other)].map(|(reserve, cap, drawn)| Signer {
        reserve,
        cap,
        drawn,
    })
}

/// On 8 words from the opening on: where draws start, what they add, and what is refused; then a refill.
fn pools() -> Checked {
    let limits = (corkhollow::SIGNERS, corkhollow::POOL_WORDS);
    must("limits", limits == (16, 65_536))?;
    let mut pool = signers(7, 4_000_000_000);
    let opened = corkhollow::pool_open(8, &mut pool);
    must("pool_open", opened == Ok(()) && pool == signers(0, 0))?;
    for (signer, q, answer, left) in [
        (0, 6, Err(Refusal(19)), (0, 0)), // would leave 2, and signer 1 lacks 3
        (0, 4, Ok(0), (4, 0)),
        (1, 4, Err(Refusal(18)), (4, 0)),
        (1, 2, Ok(4), (4, 2)),
        (2, 0, Err(Refusal(17)), (4, 2)),
        (0, 2, Err(Refusal(19)), (4, 2)), // would leave none, and signer 1 lacks 1
        (0, 1, Ok(6), (5, 2)),
        (1, 1, Ok(7), (5, 3)),
        (1, 0, Ok(8), (5, 3)),
        (0, usize::MAX, Err(Refusal(18)), (5, 3)),
    ] {
        let drawn = corkhollow::pool_draw(8, &mut pool, signer, q);
        let after = signers(left.0, left.1);
        must("pool_draw", drawn == answer && pool == after)?;
    }
    let refilled = corkhollow::pool_refill(8, &mut pool);
    must("pool_refill", refilled == Ok(()) && pool == signers(0, 0))?;
    no_pools()
}

/// 3: too few words for the reserves, too many words, draws above a cap, no signers. An opening does not look at draws.
fn no_pools() -> Checked {
    let size = Err(Refusal(3));
    for (words, one, other, opens) in [(4, 0, 0, false), (65_537, 0, 0, false), (8, 1, 4, true)] {
        let mut pool = signers(one, other);
        let drawn = corkhollow::pool_draw(words, &mut pool, 0, 0);
        must("pool_draw", drawn == Err(Refusal(3)))?;
        must(
            "pool_refill",
            corkhollow::pool_refill(words, &mut pool) == size,
        )?;
        must("a refused pool", pool == signers(one, other))?;
        let opened = corkhollow::pool_open(words, &mut pool);
        must("pool_open", opened == if opens { Ok(()) } else { size })?;
    }
    must("pool_open", corkhollow::pool_open(8, &mut []) == size)
}
