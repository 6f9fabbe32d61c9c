//! Plain samples, the totals of two loaded dice: builds a table from weights, compiles it, draws 1,000,000 samples from /dev/urandom, and
//! prints how often each came beside how often the table says. The progress goes to standard error, where that is a terminal.
//!
//! The table has few columns, so that what it cannot share out evenly shows: some strings miss.

#[path = "../include/corkhollow.rs"]
mod corkhollow;

use corkhollow::{LANES, MISS, MOST_MATRIX_BYTES, MOST_PROGRAM_BYTES};
use std::error::Error;
use std::fs::File;
use std::io::{self, BufReader, IsTerminal, Read, Write};
use std::process::ExitCode;

/// How likely each face of a die is: the six is twice as likely as any other.
const FACES: [u32; 6] = [1, 1, 1, 1, 1, 2];
/// Totals 2 to 12; sample v is the total v + 2.
const ROWS: usize = 11;
const COLUMNS: usize = 12;
const WIDTH: usize = corkhollow::width(COLUMNS);
/// The bits of a string's last byte that belong to it; the rest are spare, and the engine refuses strings with a spare bit set.
const LAST_BYTE: u8 = 0xff << (8 * WIDTH - COLUMNS);
const SAMPLES: usize = 1_000_000;
const BATCHES: usize = SAMPLES / LANES;
const BAR: usize = 50;
const _: () = assert!(BATCHES * LANES == SAMPLES, "a batch is drawn whole");

/// Something for each total, and for a miss.
struct Each<T> {
    totals: [T; ROWS],
    miss: T,
}

fn weights() -> [u32; ROWS] {
    let mut weights = [0; ROWS];
    for (i, one) in FACES.iter().enumerate() {
        for (j, other) in FACES.iter().enumerate() {
            weights[i + j] += one * other;
        }
    }
    weights
}

/// The proportions that the matrix itself gives, which is what the engine promises.
fn expected(matrix: &[u8]) -> Result<Each<f64>, Box<dyn Error>> {
    let mut entries = [0; ROWS * COLUMNS];
    corkhollow::read(matrix, &mut entries)?;
    let mut totals = [0.0; ROWS];
    for (total, row) in totals.iter_mut().zip(entries.chunks(COLUMNS)) {
        let strings = row
            .iter()
            .fold(0, |number, &bit| 2 * number + u32::from(bit));
        *total = f64::from(strings) / f64::from(1 << COLUMNS);
    }
    let miss = 1.0 - totals.iter().sum::<f64>();
    Ok(Each { totals, miss })
}

/// Every batch takes fresh strings.
fn draw(program: &[u8]) -> Result<Each<usize>, Box<dyn Error>> {
    let mut random = BufReader::new(File::open("/dev/urandom")?);
    let mut strings = [0; LANES * WIDTH];
    let mut samples = [0; LANES];
    let mut drawn = Each {
        totals: [0; ROWS],
        miss: 0,
    };
    for batch in 0..BATCHES {
        random.read_exact(&mut strings)?;
        for string in strings.chunks_mut(WIDTH) {
            string[WIDTH - 1] &= LAST_BYTE;
        }
        corkhollow::draw(program, &strings, &mut samples)?;
        for sample in samples {
            match sample {
                MISS => drawn.miss += 1,
                v => drawn.totals[usize::from(v)] += 1,
            }
        }
        progress(batch + 1);
    }
    Ok(drawn)
}

/// Rewrites the progress line where the percentage is a new one; not into a file or a pipe.
fn progress(batch: usize) {
    let percent = batch * 100 / BATCHES;
    if percent != (batch - 1) * 100 / BATCHES && io::stderr().is_terminal() {
        let end = if batch == BATCHES { "\n" } else { "" };
        eprint!("\rdrawing {percent:3}%{end}");
    }
}

/// A bar of what came, with a mark where it was due; both are shares of the longest bar.
fn bar(came: f64, due: f64) -> String {
    let cells = |share: f64| (share * BAR as f64).round() as usize;
    let (filled, mark) = (cells(came), cells(due));
    let cell = |i: usize| match i {
        i if i == mark => '|',
        i if i < filled => '#',
        _ => ' ',
    };
    (0..filled.max(mark + 1)).map(cell).collect()
}

/// A line of the chart: what came and what was due, as proportions of all samples.
struct Line {
    label: String,
    came: f64,
    due: f64,
}

impl Line {
    fn new(label: String, count: usize, due: f64) -> Line {
        let came = count as f64 / SAMPLES as f64;
        Line { label, came, due }
    }

    /// The difference in standard deviations.
    fn deviations(&self) -> f64 {
        (self.came - self.due) / (self.due * (1.0 - self.due) / SAMPLES as f64).sqrt()
    }
}

fn lines(drawn: &Each<usize>, expected: &Each<f64>) -> Vec<Line> {
    let both = drawn.totals.into_iter().zip(expected.totals);
    let mut lines: Vec<Line> = (2..)
        .zip(both)
        .map(|(total, (count, due))| Line::new(format!("{total}"), count, due))
        .collect();
    lines.push(Line::new("miss".into(), drawn.miss, expected.miss));
    lines
}

fn print_chart(out: &mut impl Write, lines: &[Line]) -> io::Result<()> {
    let longest = lines.iter().map(|l| l.came.max(l.due)).fold(0.0, f64::max);
    writeln!(out, "total     drawn  expected  # drawn, | expected")?;
    for Line { label, came, due } in lines {
        let (came_percent, due_percent) = (100.0 * came, 100.0 * due);
        let bar = bar(came / longest, due / longest);
        writeln!(
            out,
            "{label:>5}  {came_percent:7.4}% {due_percent:8.4}%  {bar}"
        )?;
    }
    Ok(())
}

/// So that a reader sees whether the differences are those of chance.
fn print_largest(out: &mut impl Write, lines: &[Line]) -> io::Result<()> {
    let size = |line: &&Line| line.deviations().abs();
    let largest = lines.iter().max_by(|a, b| size(a).total_cmp(&size(b)));
    if let Some(line) = largest {
        let (deviations, label) = (line.deviations(), &line.label);
        writeln!(
            out,
            "\nlargest difference: {deviations:+.1} standard deviations, at {label}"
        )?;
    }
    writeln!(
        out,
        "(by chance alone it is above 4 in about one run of 1,300)"
    )
}

fn run() -> Result<(), Box<dyn Error>> {
    let mut matrix = [0; MOST_MATRIX_BYTES];
    let length = corkhollow::build(&weights(), COLUMNS, false, &mut matrix)?;
    let matrix = &matrix[..length];
    let mut program = vec![0; MOST_PROGRAM_BYTES];
    let length = corkhollow::compile(matrix, &mut program)?;
    program.truncate(length);
    let expected = expected(matrix)?;
    let lines = lines(&draw(&program)?, &expected);
    let mut out = io::stdout().lock();
    writeln!(
        out,
        "{SAMPLES} totals of two loaded dice, from a table of {ROWS} rows and {COLUMNS} columns\n"
    )?;
    print_chart(&mut out, &lines)?;
    print_largest(&mut out, &lines)?;
    out.flush()?;
    Ok(())
}

fn main() -> ExitCode {
    match run() {
        Ok(()) => ExitCode::SUCCESS,
        Err(why) => {
            eprintln!("{why}");
            ExitCode::FAILURE
        }
    }
}
