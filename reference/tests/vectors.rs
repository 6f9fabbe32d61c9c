//! The vectors: the same each time, small enough to store, and answered from their own text.

use reference::compiler::VALUE_BIT_CASES;
use reference::extremes::row_of_longest;
use reference::vectors::answer::answer;
use reference::vectors::line::Hash;
use reference::vectors::{each_given, LONGEST_LINE};

fn lines(scale: usize) -> Vec<String> {
    let mut lines = Vec::new();
    each_given(scale, |given| {
        let answer = answer(given).expect("every line made here is well formed");
        lines.push(format!("{given} = {answer}\n"));
    });
    lines
}

#[test]
fn the_small_set_can_be_stored() {
    let lines = lines(1);
    let size: usize = lines.iter().map(String::len).sum();
    assert!(size < 830_000, "{size} bytes");
    assert!(lines.len() > 500, "{} lines", lines.len());
}

#[test]
fn vectors_are_the_same_each_time() {
    assert_eq!(lines(1), lines(1));
}

#[test]
fn lines_are_of_the_promised_form() {
    for line in lines(8) {
        assert!(line.len() <= LONGEST_LINE, "{} bytes", line.len());
        assert_eq!(line.matches(" = ").count(), 1);
        let fields = line.trim_end().split(' ');
        let sound = |field: &str| {
            let digits = field.strip_prefix('#').unwrap_or(field);
            ["=", "-"].contains(&field)
                || !digits.is_empty()
                    && digits
                        .bytes()
                        .all(|byte| b"0123456789abcdef".contains(&byte))
        };
        assert!(fields.clone().all(sound), "{line}");
    }
}

/// Every operation is answered, and every refusal that it can give is met.
#[test]
fn refusals_are_all_met() {
    let lines = lines(1);
    let met = |task: &str, answer: &str| {
        lines.iter().any(|line| {
            let (given, rest) = line.trim_end().split_once(" = ").unwrap();
            given.split(' ').next() == Some(task) && rest.split(' ').next() == Some(answer)
        })
    };
    for (task, answers) in ANSWERS {
        for answer in answers.split(' ') {
            assert!(met(task, answer), "{task} {answer}");
        }
    }
}

/// Each task with the answers that it has: 0, or a refusal's number in hexadecimal.
const ANSWERS: [(&str, &str); 27] = [
    ("1", "0 1 2 3 4 5 6 d"),
    ("2", "0 3 5 6 d"),
    ("3", "0 3 b d"),
    ("4", "0 1 2 3 4 5 6 d"),
    ("5", "0 1 2 3 4 5 6 d"),
    ("6", "0 1 2 3 4 7 8 9 a"),
    ("7", "0 1 2 3 4 7 8 9 a d"),
    ("8", "0 1 2 3 4 7 8 9 a c d"),
    ("9", "0 3 5 d"),
    ("a", "0 3 d"),
    ("b", "0 3 d"),
    ("c", "0 1 2 3 4 5 7 8 9 a d"),
    ("d", "0 1 2 3 4 5 7 8 9 a d"),
    ("e", "0 1 2 3 4 5 6 d"),
    ("f", "0 5 d e"),
    ("10", "0 1 2 3 4 5 6"),
    ("11", "0"),
    ("12", "0"),
    ("13", "0 1 3 4"),
    ("14", "0"),
    ("15", "0 3 d f 10"),
    ("16", "0 1 2 3 4 5 6 d"),
    ("17", "0 3 f 10"),
    ("18", "0 1 2 3 4 5 6 d"),
    ("19", "0 3"),
    ("1a", "0 3 11 12 13"),
    ("1b", "0 3"),
];

/// 02, order 3: the cut files that it speaks of are given to each operation that takes a file.
#[test]
fn foreign_short_files_are_given_to_every_operation() {
    let lines = lines(1);
    let answered = |task: &str, file: &str, number: &str| {
        let found = lines.iter().any(|line| {
            let (given, answer) = line.trim_end().split_once(" = ").unwrap();
            given.split(' ').take(2).eq([task, file]) && answer == number
        });
        assert!(found, "{task} {file} .. = {number}");
    };
    // 15 bytes of the program that 01 lists, and of a matrix of four rows and eleven columns.
    let program = "100010000a000100020002000c0000";
    let matrix = "1000200004000b00802020005fc000";
    let of_matrix = ["1", "4", "5", "e", "10", "16", "18"].map(|task| (task, program));
    let of_program = ["6", "7", "8", "c", "d"].map(|task| (task, matrix));
    for (task, foreign) in of_matrix.into_iter().chain(of_program) {
        answered(task, &foreign[..2 * 3], "1");
        for bytes in [4, 7, 8, 15] {
            answered(task, &foreign[..2 * bytes], "2");
        }
    }
    for bytes in 4..=15 {
        answered("1", &program[..2 * bytes], "2");
        answered("6", &matrix[..2 * bytes], "2");
    }
}

/// 02, order 4: numbers are looked up as the first sample, as the last of document 004's, as the last
/// that there can be, and as a miss; and tables of the most numbers and columns are imported and
/// exported.
#[test]
fn lookups_hit_and_miss() {
    let lines = lines(1);
    let met = |task: &str, answer: &str| {
        let given = format!("{task} ");
        let answered = format!(" = {answer}");
        let of_task = |line: &&String| line.starts_with(&given);
        let mut found = lines.iter().filter(of_task);
        assert!(
            found.any(|line| line.contains(&answered)),
            "{task} {answer}"
        );
    };
    for sample in ["0\n", "a\n", "7f\n", "ff\n"] {
        met("17", &format!("0 {sample}"));
    }
    // 8 + 128 × 8 bytes, and 129 numbers of 63 columns.
    met("15", "0 408 #");
    met("16", "0 81 3f #");
}

/// 02, order 5: lists are built for plain and for signed use, with the rows that can be worked out
/// by hand, and each refusal is met for both.
#[test]
fn weights_are_built_for_both_uses() {
    let lines = lines(1);
    let built = |weights: &str, columns: &str, signed: &str, answer: &str| {
        let given = format!("3 {weights} {columns} {signed} ");
        let answered = format!(" = {answer}\n");
        let found = |line: &String| line.starts_with(&given) && line.ends_with(&answered);
        assert!(lines.iter().any(found), "{given}.. = {answer}");
    };
    for (signed, rows) in [("0", "404040"), ("1", "004040")] {
        let answer = format!("0 b 0b00200003000200{rows}");
        built("000000010000000100000001", "2", signed, &answer);
        built("0000000000000005", "3", signed, "0 a 0a0020000200030000e0");
        built("0000000000000005", "3", signed, "d");
        built("000000000000000000000000", "2", signed, "b");
        built("00000001", "1", signed, "0 9 090020000100010080");
        built("-", "80", signed, "3");
    }
    // 128 times the largest: of 128 rows and columns row 0 is 0101..01, the others are 0202..02.
    let header = [8u8, 8, 32, 0, 128, 0, 128, 0];
    let file = [&header[..], &[1; 16], &[2; 127 * 16]].concat();
    let answer = format!("0 808 #{:016x}", Hash::of(&file).value());
    built(&"f".repeat(8 * 128), "80", "1", &answer);
}

/// The bytes of the program of so many rows that are set in the last of 7 columns, by 01's list.
fn program_length(rows: usize, bits: usize) -> usize {
    let (mut bytes, mut live) = (16 + 6 * (2 + bits) + 8 * (1 + bits), 1);
    for ones in [0, 0, 0, 0, 0, 0, rows] {
        let after = rows.min(2 * live - ones);
        bytes += 2 * 8 + 10 * (2 * live + after);
        live = after;
    }
    let marks: usize = (0..rows).map(|v| 1 + v.count_ones() as usize).sum();
    bytes + 10 * marks
}

/// 02, order 6: the fewest and the most rows of each case are compiled to as many bytes as its value
/// bits say, and the samples drawn of them can be worked out by hand: 64 strings that spell 0 to 63
/// hit the rows from m - 1 down.
#[test]
fn rows_of_every_case_are_compiled_and_drawn() {
    let lines = lines(1);
    let found = |given: String, answer: String| {
        let is_it = |line: &String| line.starts_with(&given) && line.contains(&answer);
        assert!(lines.iter().any(is_it), "{given}..{answer}..");
    };
    for (fewest, most, bits) in VALUE_BIT_CASES {
        for rows in [fewest, most] {
            let bytes = "02".repeat(rows);
            let file = format!("{:02x}002000{rows:02x}000700{bytes}", 8 + rows);
            let length = program_length(rows, bits);
            found(format!("5 {file} "), format!(" = 0 {length:x} "));
            let sample = |s: usize| rows.checked_sub(1 + s).unwrap_or(0xff);
            let samples: String = (0..64).map(|s| format!("{:02x}", sample(s))).collect();
            found(format!("11 {file} "), format!(" = 0 {samples} "));
        }
    }
}

/// ONES 0 and every output from register 0, in a header that says this of rows and outputs, by hand.
fn filled_program(rows: usize, outputs: usize) -> String {
    let count = 1 + outputs;
    let header = format!("10001000010001000{outputs:x}00{rows:02x}000{count:x}000000");
    let output = |i: usize| format!("080007000{i:x}000000");
    let code: String = (0..outputs).map(output).collect();
    format!("{header}060001000000{code}")
}

/// 02, order 10: in a header the fewest and the most rows of each case, with as many outputs as they
/// take, and with as many as the next case has; rows outside; and the header of 14 bytes.
#[test]
fn rows_are_met_in_headers() {
    let lines = lines(1);
    let met = |line: String| assert!(lines.contains(&format!("{line}\n")), "{line}");
    for (fewest, most, bits) in VALUE_BIT_CASES {
        let outputs = bits + 1;
        for rows in [fewest, most] {
            let program = filled_program(rows, outputs);
            let count = 1 + outputs;
            met(format!(
                "6 {program} = 0 1 1 {outputs:x} {rows:x} {count:x}"
            ));
        }
        met(format!("6 {} = 3", filled_program(fewest, bits)));
        met(format!("6 {} = 3", filled_program(most, bits + 2)));
    }
    met(format!("6 {} = 3", filled_program(0, 1)));
    for (task, lent) in [
        ("6", ""),
        ("7", " - 0 0 0"),
        ("8", " - - - 63 0"),
        ("c", " - 0"),
        ("d", " - 0 0"),
    ] {
        for (rows, outputs) in [(129, 8), (3, 2)] {
            let program = filled_program(rows, outputs);
            met(format!("{task} {program}{lent} = 3"));
        }
        let old = "0e001000010001000100020000000600010000000800070000000000";
        met(format!("{task} {old}{lent} = 4"));
    }
    // All is at fault: 4 before 3, and 1 before both; and so it is with the header of 14 bytes alone.
    let rest = "0000c10009008100ffffff";
    for length in ["0000", "0e00", "0f00", "1100", "ffff"] {
        met(format!("6 {length}1000{rest}ff = 4"));
    }
    met(format!("6 10001000{rest}ff = 3"));
    met(format!("6 0e001000{rest} = 1"));
    met(format!("6 0e002000{rest} = 2"));
    met("6 0e00100001000100010002000000 = 1".to_string());
}

/// Words in which lane j spells 64 + j in so many bits.
fn words_in_turn(bits: usize) -> String {
    let words = [
        "ffffffffffffffff",
        "aaaaaaaaaaaaaaaa",
        "cccccccccccccccc",
        "f0f0f0f0f0f0f0f0",
        "ff00ff00ff00ff00",
        "ffff0000ffff0000",
        "ffffffff00000000",
        "ffffffffffffffff",
    ];
    words[..=bits].concat()
}

/// 02, order 10: samples of the fewest and the most rows of each case, by hand, plain and with both
/// signs; and rows that fewer bits would take for sound.
#[test]
fn samples_are_read_with_rows() {
    let lines = lines(1);
    let met = |line: String| assert!(lines.contains(&format!("{line}\n")), "{line}");
    for (fewest, most, bits) in VALUE_BIT_CASES {
        for rows in [fewest, most] {
            let given = format!("{rows:x} {}", words_in_turn(bits));
            let numbers: Vec<usize> = (64..128).map(|number| number % (1 << bits)).collect();
            let plain = |number: &usize| match *number {
                number if number < rows => format!("{number:02x}"),
                _ => "ff".to_string(),
            };
            let samples: String = numbers.iter().map(plain).collect();
            met(format!("a {given} 40 = 0 {samples}"));
            // Odd lanes of the first half have their sign set, and even ones of the second.
            let negated = |lane: usize| (lane < 32) == (lane % 2 == 1);
            let signed = |lane: usize| match (numbers[lane], negated(lane)) {
                (number, _) if number >= rows => "7fff".to_string(),
                (number, false) => format!("{number:04x}"),
                (number, true) => format!("{:04x}", (65_536 - number) % 65_536),
            };
            let samples: String = (0..64).map(signed).collect();
            met(format!("b {given} 55555555aaaaaaaa 40 = 0 {samples}"));
        }
    }
    let word = "55555555aaaaaaaa";
    for (rows, words) in [
        ("0", 1),
        ("81", 8),
        ("81", 9),
        ("101", 1),
        ("180", 8),
        ("10001", 1),
        ("100000001", 1),
        ("ffffffffffffffff", 8),
    ] {
        let words = word.repeat(words);
        met(format!("a {rows} {words} 40 = 3"));
        met(format!("b {rows} {words} {word} 40 = 3"));
    }
    // Of 5 rows four words are 13 where 63 samples are lent, and any other number is 3.
    met("b 5 - 0 3f = 3".to_string());
    for words in 1..=10 {
        let number = if words == 4 { "d" } else { "3" };
        met(format!("b 5 {} 0 3f = {number}", word.repeat(words)));
    }
}

/// Programs that hand their inputs through, the first as the hit, are drawn: a number that is not below
/// their rows is a miss.
#[test]
fn numbers_that_are_no_rows_are_drawn_as_misses() {
    let lines = lines(1);
    let pair = |i: usize| format!("0800030000000{i:x}00080007000{i:x}000000");
    let code: String = (0..4).map(pair).collect();
    let program = format!("10001000010004000400050008000000{code}");
    // 1, then the number, lowest bit first.
    let numbers = ["80", "c0", "a0", "e0", "90", "d0", "b0", "f0"];
    let strings = numbers.concat().repeat(8);
    let samples = "0001020304ffffff".repeat(8);
    let line = format!("c {program} {strings} 40 = 0 {samples}\n");
    assert!(lines.contains(&line), "{line}");
    let half = |signs: [i16; 2]| {
        let samples = [0, 1, 2, 3, 4].map(|n| format!("{:04x}", n * signs[n as usize % 2]));
        format!("{}7fff7fff7fff", samples.concat()).repeat(4)
    };
    let samples = format!("{}{}", half([1, -1]), half([-1, 1]));
    let line = format!("d {program} {strings} 55555555aaaaaaaa 40 = 0 {samples}\n");
    assert!(lines.contains(&line), "{line}");
}

/// This line is among the vectors of task 18.
fn met(lines: &[String], given: &str, answer: &str) {
    let line = format!("18 {given} = {answer}\n");
    assert!(lines.contains(&line), "{line}");
}

/// 02, order 7: strings that can be worked out by hand, and numbers that are no row's.
#[test]
fn strings_of_rows_are_found() {
    let lines = lines(1);
    // Rows 10, 01, 01.
    let three = "0b00200003000200804040";
    for (row, string) in [(0, "00"), (1, "c0"), (2, "80")] {
        met(
            &lines,
            &format!("{three} {row} 1"),
            &format!("0 1 {string}"),
        );
    }
    for row in ["3", "7f", "80", "100000000", "ffffffffffffffff"] {
        met(&lines, &format!("{three} {row} 1"), "3");
    }
    met(&lines, &format!("{three} 3 0"), "3");
    // Rows 10, 10, 01 are above 2^n, and have no row 3 either.
    met(&lines, "0b00200003000200808040 3 0", "6");
    // 128 rows that are set in the last of 7 columns: row v is hit by the string that spells 127 - v.
    let tall = format!("8800200080000700{}", "02".repeat(128));
    for row in [0, 1, 63, 64, 126, 127] {
        let string = format!("0 1 {:02x}", 2 * (127 - row));
        met(&lines, &format!("{tall} {row:x} 1"), &string);
    }
    met(&lines, &format!("{tall} 80 1"), "3");
}

/// Of 9 and of 128 columns a row that is 1, before one that is 2^n - 1, which the string of all ones
/// alone hits, and a row that is 0: with the room that a string takes, one byte more and one less.
#[test]
fn strings_take_their_room() {
    let lines = lines(1);
    let nine = "0e002000030009000080ff800000".to_string();
    let last = format!("{}01", "00".repeat(15));
    let (ones, zeros) = ("ff".repeat(16), "00".repeat(16));
    let wide = format!("3800200003008000{last}{ones}{zeros}");
    for (file, exact, string) in [(nine, 2, "ff80"), (wide, 16, &ones)] {
        for room in [exact, exact + 1] {
            let found = format!("0 1 {string}");
            met(&lines, &format!("{file} 0 {room:x}"), &found);
            met(&lines, &format!("{file} 2 {room:x}"), "0 0 -");
        }
        for row in [0, 2] {
            met(&lines, &format!("{file} {row} {:x}", exact - 1), "d");
        }
    }
}

/// 02, order 8: 129, 191 and 192 columns are answered by each operation that takes columns or a
/// matrix file, with nothing else in order, and 193 are refused with 3. An export has 3 for all.
#[test]
fn columns_up_to_192_are_answered() {
    let lines = lines(1);
    let met = |line: String| assert!(lines.contains(&format!("{line}\n")), "{line}");
    for (columns, within) in [(129, true), (191, true), (192, true), (193, false)] {
        let number = |refusal: &'static str| if within { refusal } else { "3" };
        met(format!("9 {columns:x} - 0 = {}", number("d")));
        met(format!("2 1 {columns:x} - 0 = {}", number("d")));
        met(format!("3 00000001 {columns:x} 0 0 = {}", number("d")));
        met(format!("3 00000000 {columns:x} 1 0 = {}", number("b")));
    }
    let most = format!("200020000100c000{}", "00".repeat(24));
    let wider = format!("210020000100c100{}", "00".repeat(25));
    for (task, lent, number) in [
        ("1", " 0", "d"),
        ("4", " -", "d"),
        ("e", " -", "d"),
        ("5", " 0", "d"),
        ("10", "", &format!("0 20 {most}")),
        ("16", " 0", "3"),
        ("18", " ffffffffffffffff 0", "3"),
    ] {
        met(format!("{task} {most}{lent} = {number}"));
        met(format!("{task} {wider}{lent} = 3"));
    }
    // 3 and 4 come in their order, and so do the two sizes.
    for (header, bytes, number) in [
        ("200020000100c100", 24, "3"),
        ("210020008100c100", 25, "3"),
        ("200020008100c000", 24, "3"),
        ("210020000100c000", 25, "4"),
        ("1f0020000100c000", 24, "4"),
        ("200020000100c000", 25, "4"),
    ] {
        met(format!("1 {header}{} c0 = {number}", "00".repeat(bytes)));
    }
}

/// Two rows of which each is 2^(n-1), and a third that is 1; rows of 2^192 / 3 and of 2^192 / 5; and
/// walks that use all columns.
#[test]
fn numbers_of_192_columns_are_met() {
    let lines = lines(1);
    let met = |line: String| assert!(lines.contains(&format!("{line}\n")), "{line}");
    let (zeros, last) = ("00".repeat(23), format!("{}01", "00".repeat(23)));
    let halves = format!("80{zeros}80{zeros}");
    let accepted = format!("380020000200c000{halves}");
    met(format!("10 {accepted} = 0 38 {accepted}"));
    met(format!("1 500020000300c000{halves}{last} 240 = 6"));
    for (signed, first, second) in [(0, "55", "aa"), (1, "33", "cc")] {
        let [first, second, third] = [first, second, "00"].map(|byte| byte.repeat(24));
        let file = format!("500020000300c000{first}{second}{third}");
        let list = "000000010000000200000000";
        met(format!("3 {list} c0 {signed} 50 = 0 50 {file}"));
    }
    // The row that is 1 is hit by all zeros, in the last column, and missed by 1 and then zeros.
    let one = format!("200020000100c000{last}");
    met(format!("4 {one} 00{zeros} = 0 0 c0"));
    met(format!("4 {one} 80{zeros} = 0 ff c0"));
    let strings = format!("00{zeros}80{zeros}").repeat(32);
    met(format!("e {one} {strings} = 0 3000"));
}

/// Inputs at their limit, where the last is taken, and counts at theirs, of which nothing is there.
#[test]
fn program_headers_up_to_the_limits_are_met() {
    let lines = lines(1);
    let met = |line: String| assert!(lines.contains(&format!("{line}\n")), "{line}");
    for (inputs, last, answer) in [
        ("8000", "7f00", "0 1 80 1 1 2"),
        ("8100", "8000", "0 1 81 1 1 2"),
        ("8100", "8100", "8"),
        ("c000", "bf00", "0 1 c0 1 1 2"),
        ("c000", "c000", "8"),
        ("c100", "c000", "3"),
    ] {
        let header = format!("100010000100{inputs}0100010002000000");
        let code = format!("080003000000{last}0800070000000000");
        met(format!("6 {header}{code} = {answer}"));
    }
    for (count, answer) in [
        ("00000200", "1"),
        ("01000200", "1"),
        ("00000400", "1"),
        ("01000400", "3"),
    ] {
        met(format!("6 100010000100010001000100{count} = {answer}"));
    }
}

/// A program with the most registers and outputs, in which NOT 1023 1023 is repeated, as the fields
/// of tasks 13 and 14: the number of its inputs, the last of them, its count, and how many
/// instructions are there.
fn long_program(inputs: &str, last: &str, count: &str, there: usize) -> String {
    let outputs: String = (0..8).map(|i| format!("08000700{i:02x}00ff03")).collect();
    let first = format!("100010000004{inputs}08008000{count}08000300ff03{last}");
    format!("{first} 08000400ff03ff03 {:x} {outputs}", there - 9)
}

#[test]
fn instructions_up_to_the_limit_are_met() {
    let lines = lines(1);
    for (count, there, answer) in [
        ("00000400", 262_144, "0 400 c0 8 80 40000"),
        ("00000400", 262_143, "1"),
        ("00000400", 262_145, "4"),
        ("01000400", 262_145, "3"),
        ("01000400", 262_144, "3"),
        ("01000200", 131_073, "0 400 c0 8 80 20001"),
    ] {
        let program = long_program("c000", "bf00", count, there);
        let line = format!("13 {program} = {answer}\n");
        assert!(lines.contains(&line), "{line}");
    }
}

/// Stops on both sides of 131,072, and the end. The input is 0x5555, an even number of NOTs leaves
/// it as it is, and before the outputs there are 262,135 of them.
#[test]
fn long_programs_are_started() {
    let lines = lines(1);
    let program = long_program("0100", "0000", "00000400", 262_144);
    let word = 0x5555u64;
    for (budget, register, output) in [
        (131_072u32, !word, 0),
        (131_073, word, 0),
        (196_609, word, 0),
        (262_136, !word, 0),
        (262_144, !word, !word),
    ] {
        let finished = u8::from(budget == 262_144);
        let mut registers = [0; 1_024];
        registers[1_023] = register;
        let mut hash = Hash::default();
        hash.take(&[budget, budget]);
        hash.take(&[finished]);
        hash.take(&registers);
        hash.take(&[output; 8]);
        let outputs = format!("{output:016x}").repeat(8);
        let numbers = format!("0 {budget:x} {budget:x} {finished}");
        let answer = format!("{numbers} {outputs} #{:016x}", hash.value());
        let line = format!("14 {program} {word:016x} {budget:x} = {answer}\n");
        assert!(lines.contains(&line), "{line}");
    }
}

/// The one line that begins so.
fn only<'a>(lines: &'a [String], begin: &str) -> &'a str {
    let mut found = lines.iter().filter(|line| line.starts_with(begin));
    let (line, other) = (found.next().unwrap(), found.next());
    assert_eq!(other, None);
    line
}

/// The compiled program of 128 rows and 192 columns is stopped and resumed to its end. An empty
/// column that begins with h distances has 2 instructions, 2 h ANDs and, as 2 h are live after it,
/// as many ORs; h is 1, 2, .., 64. Each of the 185 full columns has 962, and 17 are outside columns.
#[test]
fn the_longest_program_is_stopped_and_resumed() {
    let opening: usize = [1, 2, 4, 8, 16, 32, 64].iter().map(|h| 2 + 4 * h).sum();
    let count = 17 + opening + 185 * 962;
    assert_eq!(count, 178_509);
    let lines = lines(1);
    let line = only(&lines, "12 080c20008000c000");
    let fields: Vec<&str> = line.split(' ').collect();
    let word = |at: usize| u64::from_str_radix(&fields[2][at..at + 16], 16).unwrap();
    let inputs: Vec<u64> = (0..192).map(|i| word(16 * i)).collect();
    let row = |lane| row_of_longest(&inputs, lane).unwrap();
    let rows: Vec<u64> = (0..64).map(row).collect();
    let bits = |t: usize| (0..64).map(|lane| (rows[lane] >> t & 1) << lane).sum();
    let outputs: Vec<u64> = std::iter::once(u64::MAX).chain((0..7).map(bits)).collect();
    let outputs: String = outputs.iter().map(|word| format!("{word:016x}")).collect();
    assert_eq!(fields[5..9], ["0", "2b94d", "2b94d", "1"]);
    assert_eq!(fields[9], outputs);
}

/// The curve of 002 with 192 columns is drawn for the strings of its last 48 rows, and for three that
/// miss.
#[test]
fn the_fine_table_is_drawn() {
    let lines = lines(1);
    let line = only(&lines, "11 680920006400c000");
    let rows: String = (52..100).map(|row| format!("{row:02x}")).collect();
    assert!(line.contains(&format!(" = 0 {rows}ffffff")), "{line}");
}

/// The records of signers as a field: reserve, cap and what was drawn of each.
fn signers(records: &[(u32, u32, u32)]) -> String {
    let record =
        |&(reserve, cap, drawn): &(u32, u32, u32)| format!("{reserve:08x}{cap:08x}{drawn:08x}");
    records.iter().map(record).collect()
}

/// 02, order 9: 10 words of which 4 and 3 are reserved, from the opening on, by hand.
#[test]
fn pools_are_drawn_from_in_turn() {
    let lines = lines(1);
    let pool = |one: u32, other: u32| signers(&[(4, 7, one), (3, u32::MAX, other)]);
    let mut wanted = vec![format!("19 a {} = 0 {}", pool(9, u32::MAX), pool(0, 0))];
    let mut draw = |before: (u32, u32), signer: usize, q: usize, answer: &str| {
        let records = pool(before.0, before.1);
        wanted.push(format!("1a a {records} {signer:x} {q:x} = {answer}"));
    };
    draw((0, 0), 1, 3, &format!("0 0 {}", pool(0, 3)));
    draw((0, 3), 0, 3, &format!("0 3 {}", pool(3, 3)));
    // Signer 0 lacks one of the four words that are left.
    draw((3, 3), 1, 4, "13");
    draw((3, 3), 1, 3, &format!("0 6 {}", pool(3, 6)));
    draw((3, 6), 0, 1, &format!("0 9 {}", pool(4, 6)));
    draw((4, 6), 0, 1, "13");
    draw((4, 6), 0, 0, &format!("0 a {}", pool(4, 6)));
    draw((7, 0), 0, 1, "12");
    wanted.push(format!("1b a {} = 0 {}", pool(4, 6), pool(0, 0)));
    for line in wanted {
        assert!(lines.contains(&format!("{line}\n")), "{line}");
    }
}

/// Numbers at their limits, and those that fewer bits would take for sound.
#[test]
fn pools_up_to_the_limits_are_met() {
    let lines = lines(1);
    let met = |line: String| assert!(lines.contains(&format!("{line}\n")), "{line}");
    for number in [0, 1, 15, 16, 17, 20] {
        let records = match number {
            0 => "-".to_string(),
            _ => signers(&vec![(1, 2, 0); number]),
        };
        let answer = match number {
            1..=16 => format!("0 {records}"),
            _ => "3".to_string(),
        };
        met(format!("19 {number:x} {records} = {answer}"));
        met(format!("1b {number:x} {records} = {answer}"));
    }
    for words in ["10001", "100000000", "100000005", "ffffffffffffffff"] {
        met(format!("19 {words} {} = 3", signers(&[(5, 5, 0)])));
    }
    let (top, half) = (u32::MAX, 1 << 31);
    met(format!("19 5 {} = 3", signers(&[(half, top, 0); 2])));
    met(format!("1b 5 {} = 3", signers(&[(0, top, half); 2])));
    let three = signers(&[(4, 6, 1), (2, 20, 4), (0, 3, 1)]);
    for signer in ["3", "100000000", "ffffffffffffffff"] {
        met(format!("1a 14 {three} {signer} 1 = 11"));
    }
    let wide = signers(&[(2, 5, 1), (2, top, 7), (0, half, 0)]);
    for (signer, q, answer) in [
        (0, "5", "12"),
        (0, "ffffffffffffffff", "12"),
        (1, "fffffff8", "13"),
        (1, "fffffff9", "12"),
        (1, "fffffffffffffff9", "12"),
    ] {
        met(format!("1a 10000 {wide} {signer} {q} = {answer}"));
    }
}

/// README, "How large the fields get": task, field, digits an element (0 for a number), the most.
const SIZES: [(&str, usize, usize, u64); 53] = [
    ("1", 1, 2, 3_080),
    ("4", 1, 2, 3_080),
    ("5", 1, 2, 3_080),
    ("e", 1, 2, 3_080),
    ("10", 1, 2, 3_080),
    ("11", 1, 2, 3_080),
    ("12", 1, 2, 3_080),
    ("16", 1, 2, 3_080),
    ("18", 1, 2, 3_080),
    ("6", 1, 2, 600),
    ("7", 1, 2, 600),
    ("8", 1, 2, 600),
    ("c", 1, 2, 600),
    ("d", 1, 2, 600),
    ("1", 2, 0, 24_576),
    ("2", 3, 2, 2_048),
    ("2", 4, 0, 4_096),
    ("3", 1, 8, 129),
    ("3", 4, 0, 4_096),
    ("4", 2, 2, 25),
    ("5", 2, 0, 2_621_456),
    ("7", 2, 16, 192),
    ("7", 3, 0, 16),
    ("7", 4, 0, 10),
    ("8", 2, 16, 192),
    ("8", 3, 16, 16),
    ("8", 4, 16, 10),
    ("9", 2, 2, 1_536),
    ("9", 3, 0, 193),
    ("a", 2, 16, 10),
    ("a", 3, 0, 65),
    ("b", 2, 16, 10),
    ("b", 4, 0, 65),
    ("c", 3, 0, 65),
    ("d", 4, 0, 65),
    ("e", 2, 2, 1_536),
    ("f", 1, 4, 66),
    ("f", 2, 4, 66),
    ("f", 3, 4, 66),
    ("f", 4, 4, 66),
    ("f", 7, 0, 66),
    ("11", 2, 2, 1_536),
    ("12", 2, 16, 192),
    ("12", 3, 8, 8),
    ("14", 5, 16, 192),
    ("15", 1, 16, 131),
    ("15", 3, 0, 4_096),
    ("16", 2, 0, 131),
    ("17", 1, 16, 131),
    ("18", 3, 0, 25),
    ("19", 2, 24, 20),
    ("1a", 2, 24, 20),
    ("1b", 2, 24, 20),
];

#[test]
fn fields_stay_within_their_sizes() {
    each_given(20, |given| {
        let fields: Vec<&str> = given.split(' ').collect();
        for &(task, at, digits, most) in SIZES.iter().filter(|size| size.0 == fields[0]) {
            let size = match fields[at] {
                "-" => 0,
                number if digits == 0 => u64::from_str_radix(number, 16).unwrap(),
                array => (array.len() / digits) as u64,
            };
            assert!(size <= most, "task {task}, field {at}: {size}");
        }
    });
}
