//! The answer to a line: its fields are read, the operation is carried out, and what comes of it is
//! written.

use super::line::{Fields, Hash, Line, Malformed, Task};
use crate::compiler::compile;
use crate::cumulative::{export, import, lookup};
use crate::draws::{draw, draw_signed};
use crate::lanes::{samples, signed_samples, slice, MISS};
use crate::machine::{resume, start, Run};
use crate::matrix::{read, write};
use crate::pool;
use crate::program::check;
use crate::refusal::Answer;
use crate::walk::{spent, walk};
use crate::wanted::string_for;
use crate::weights::build;
use crate::wide::combine;

/// What stands right of the sign `=` for what stands left of it.
pub fn answer(given: &str) -> Result<String, Malformed> {
    let task = Task::of(given)?;
    let mut fields = Fields::of(given);
    fields.number()?;
    let outcome = carry_out(task, &mut fields)?;
    fields.end()?;
    Ok(match outcome {
        Ok(line) => line.to_string(),
        Err(refusal) => Line::default().number(u64::from(refusal)).to_string(),
    })
}

/// The operation's outcome, as the fields of an answer.
fn carry_out(task: Task, fields: &mut Fields) -> Result<Answer<Line>, Malformed> {
    Ok(match task {
        Task::Read => read(&fields.bytes()?, fields.size()?).map(|matrix| {
            done()
                .size(matrix.rows)
                .size(matrix.columns)
                .result(&matrix.entries)
        }),
        Task::Write => {
            let (rows, columns) = (fields.size()?, fields.size()?);
            file(write(rows, columns, &fields.bytes()?, fields.size()?))
        }
        Task::Build => {
            let (weights, columns) = (fields.short_numbers()?, fields.size()?);
            file(build(
                &weights,
                columns,
                fields.number()? != 0,
                fields.size()?,
            ))
        }
        Task::Walk => walk(&fields.bytes()?, &fields.bytes()?).map(|walked| {
            let row = walked.row.unwrap_or(usize::from(MISS));
            done().size(row).size(walked.used)
        }),
        Task::Compile => file(compile(&fields.bytes()?, fields.size()?)),
        Task::Check => checked(&fields.bytes()?),
        Task::Start => {
            let (program, inputs) = (fields.bytes()?, fields.words()?);
            let (registers, outputs) = (fields.size()?, fields.size()?);
            ran(start(
                &program,
                &inputs,
                registers,
                outputs,
                fields.short_number()?,
            ))
        }
        Task::Resume => {
            let (program, inputs) = (fields.bytes()?, fields.words()?);
            let (registers, outputs) = (fields.words()?, fields.words()?);
            let (position, budget) = (fields.short_number()?, fields.short_number()?);
            ran(resume(
                &program, &inputs, &registers, &outputs, position, budget,
            ))
        }
        Task::Slice => slice(fields.size()?, &fields.bytes()?, fields.size()?)
            .map(|words| done().result(&words)),
        Task::Samples => samples(fields.size()?, &fields.words()?, fields.size()?)
            .map(|laid| done().result(&laid)),
        Task::SignedSamples => {
            let (rows, outputs) = (fields.size()?, fields.words()?);
            signed_samples(rows, &outputs, fields.number()?, fields.size()?)
                .map(|laid| done().result(&laid))
        }
        Task::Draw => draw(&fields.bytes()?, &fields.bytes()?, fields.size()?)
            .map(|laid| done().result(&laid)),
        Task::DrawSigned => {
            let (program, strings) = (fields.bytes()?, fields.bytes()?);
            draw_signed(&program, &strings, fields.number()?, fields.size()?)
                .map(|laid| done().result(&laid))
        }
        Task::Spent => spent(&fields.bytes()?, &fields.bytes()?).map(|total| done().size(total)),
        Task::Combine => {
            let (x1, x2) = (fields.signed_samples()?, fields.signed_samples()?);
            let (x3, x4) = (fields.signed_samples()?, fields.signed_samples()?);
            let (first, second) = (fields.short_number()?, fields.short_number()?);
            combine(&x1, &x2, &x3, &x4, first, second, fields.size()?)
                .map(|laid| done().result(&laid))
        }
        Task::Rewrite => rewritten(&fields.bytes()?),
        Task::Draws => drawn(&fields.bytes()?, &fields.bytes()?, fields.number()?),
        Task::Stops => {
            let (file, inputs, budgets) =
                (fields.bytes()?, fields.words()?, fields.short_numbers()?);
            let (&first, others) = budgets
                .split_first()
                .ok_or_else(|| Malformed("no budget".to_string()))?;
            stopped(&file, &inputs, first, others)
        }
        Task::LongCheck => checked(&long_program(fields)?),
        Task::LongStart => {
            let program = long_program(fields)?;
            long_start(&program, &fields.words()?, fields.short_number()?)
        }
        Task::Import => file(import(&fields.words()?, fields.size()?, fields.size()?)),
        Task::Export => export(&fields.bytes()?, fields.size()?).map(|exported| {
            let line = done().size(exported.table.len());
            line.size(exported.columns).result(&exported.table)
        }),
        Task::Lookup => lookup(&fields.words()?, fields.size()?, fields.number()?)
            .map(|sample| done().size(sample.unwrap_or(usize::from(MISS)))),
        Task::StringFor => {
            string_for(&fields.bytes()?, fields.size()?, fields.size()?).map(|laid| {
                let line = done().number(u64::from(laid.is_some()));
                line.result(&laid.unwrap_or_default())
            })
        }
        Task::PoolOpen => {
            pool::open(fields.size()?, &fields.signers()?).map(|laid| done().result(&laid))
        }
        Task::PoolDraw => {
            let (words, signers) = (fields.size()?, fields.signers()?);
            pool::draw(words, &signers, fields.size()?, fields.size()?)
                .map(|granted| done().size(granted.start).result(&granted.signers))
        }
        Task::PoolRefill => {
            pool::refill(fields.size()?, &fields.signers()?).map(|laid| done().result(&laid))
        }
    })
}

/// The first field of an answer that is no refusal.
fn done() -> Line {
    Line::default().number(0)
}

/// A file that was laid down: its length, and itself.
fn file(laid: Answer<Vec<u8>>) -> Answer<Line> {
    laid.map(|file| done().size(file.len()).result(&file))
}

/// The five numbers of a program's header.
fn checked(program: &[u8]) -> Answer<Line> {
    let header = check(program)?;
    let line = done().size(header.registers).size(header.inputs);
    let line = line.size(header.outputs).size(header.rows);
    Ok(line.size(header.count))
}

/// A run: its numbers, registers and outputs.
fn ran(run: Answer<Run>) -> Answer<Line> {
    run.map(|run| numbers(&run).result(&run.registers).result(&run.outputs))
}

/// Position, count, and whether the run finished.
fn numbers(run: &Run) -> Line {
    let line = done()
        .number(u64::from(run.position))
        .number(u64::from(run.count));
    line.number(u64::from(run.finished))
}

/// A matrix file read, and what was read written again.
fn rewritten(given: &[u8]) -> Answer<Line> {
    let matrix = read(given, usize::MAX)?;
    file(write(
        matrix.rows,
        matrix.columns,
        &matrix.entries,
        usize::MAX,
    ))
}

/// Samples and signed samples of 64 strings by a matrix's own program.
fn drawn(file: &[u8], strings: &[u8], sign: u64) -> Answer<Line> {
    let program = compile(file, usize::MAX)?;
    let plain = draw(&program, strings, usize::MAX)?;
    let signed = draw_signed(&program, strings, sign, usize::MAX)?;
    Ok(done().result(&plain).result(&signed))
}

/// A start of a matrix's own program with the first budget and a resume, from where the call before
/// stopped, with each of the others.
fn stopped(file: &[u8], inputs: &[u64], first: u32, others: &[u32]) -> Answer<Line> {
    let program = compile(file, usize::MAX)?;
    let mut hash = Hash::default();
    let mut run = start(&program, inputs, usize::MAX, usize::MAX, first)?;
    take_run(&mut hash, &run);
    let mut total = run.count;
    for &budget in others {
        run = resume(
            &program,
            inputs,
            &run.registers,
            &run.outputs,
            run.position,
            budget,
        )?;
        take_run(&mut hash, &run);
        total += run.count;
    }
    run.count = total;
    Ok(numbers(&run).result(&run.outputs).hash(hash))
}

/// Takes a run into a hash: its numbers, registers and outputs.
fn take_run(hash: &mut Hash, run: &Run) {
    hash.take(&[run.position, run.count]);
    hash.take(&[u8::from(run.finished)]);
    hash.take(&run.registers);
    hash.take(&run.outputs);
}

/// A program file whose middle part is repeated.
fn long_program(fields: &mut Fields) -> Result<Vec<u8>, Malformed> {
    let mut program = fields.bytes()?;
    let middle = fields.bytes()?;
    let times = fields.size()?;
    program.extend(middle.repeat(times));
    program.extend(fields.bytes()?);
    Ok(program)
}

/// A start of a long program: its numbers, its outputs, and the hash of it all.
fn long_start(program: &[u8], inputs: &[u64], budget: u32) -> Answer<Line> {
    let run = start(program, inputs, usize::MAX, usize::MAX, budget)?;
    let mut hash = Hash::default();
    take_run(&mut hash, &run);
    Ok(numbers(&run).result(&run.outputs).hash(hash))
}

#[cfg(test)]
mod tests {
    use super::answer;

    #[test]
    fn answers_lines() {
        let file = "0b00200003000200804040";
        assert_eq!(
            answer(&format!("1 {file} 6")).unwrap(),
            "0 3 2 010000010001"
        );
        assert_eq!(answer(&format!("1 {file} 5")).unwrap(), "d");
        assert_eq!(
            answer("2 3 2 010000010001 b").unwrap(),
            format!("0 b {file}")
        );
        assert_eq!(answer(&format!("4 {file} 80")).unwrap(), "0 2 2");
        assert_eq!(
            answer("4 0900200001000100 80 80").unwrap_err().0,
            "one field too many: 80"
        );
        assert_eq!(answer("4 090020000100010080 80").unwrap(), "0 ff 1");
        // 64 strings 10, of which each uses both columns, and one less.
        let strings = "80".repeat(64);
        assert_eq!(answer(&format!("e {file} {strings}")).unwrap(), "0 80");
        assert_eq!(answer(&format!("e {file} {}", &strings[2..])).unwrap(), "d");
        assert_eq!(answer("1 - 0").unwrap(), "1");
        assert!(answer("1c 00").is_err());
        assert!(answer("1 0").is_err());
    }

    /// 64 times (2 + 3 × -1) + 11 × (0 + 3 × 1) = 32, with a miss in the first lane.
    #[test]
    fn answers_lines_of_four_lists() {
        let list = |entry: &str| entry.repeat(64);
        let given = format!("f {} {}", list("0002"), list("ffff"));
        let given = format!("{given} {} 7fff{}", list("0000"), &list("0001")[4..]);
        let results = format!("0 7fffffff{}", "00000020".repeat(63));
        assert_eq!(answer(&format!("{given} 3 b 40")).unwrap(), results);
        assert_eq!(answer(&format!("{given} 3 b 3f")).unwrap(), "d");
        assert_eq!(answer("f - - - - 3 3e9 0").unwrap(), "e");
        assert_eq!(
            answer("f - - - - 3 100000001 40").unwrap_err().0,
            "above 32 bits: 100000001"
        );
    }

    /// The rows 10, 01, 01 are the table 0, 2, 3, 4; without the last row, r = 4 is a miss.
    #[test]
    fn answers_lines_of_tables() {
        let file = "0b00200003000200804040";
        let numbers = [0, 2, 3, 4].map(|number| format!("{number:016x}"));
        let (table, shorter) = (numbers.concat(), numbers[..3].concat());
        let imported = answer(&format!("15 {table} 2 b")).unwrap();
        assert_eq!(imported, format!("0 b {file}"));
        assert_eq!(answer(&format!("15 {table} 2 a")).unwrap(), "d");
        assert_eq!(answer(&format!("15 {table} 1 0")).unwrap(), "f");
        let exported = answer(&format!("16 {file} 4")).unwrap();
        assert_eq!(exported, format!("0 4 2 {table}"));
        assert_eq!(answer(&format!("16 {file} 3")).unwrap(), "d");
        assert_eq!(answer(&format!("17 {table} 2 4")).unwrap(), "0 2");
        assert_eq!(answer(&format!("17 {shorter} 2 4")).unwrap(), "0 ff");
        let any = format!("17 {table} 2 ffffffffffffffff");
        assert_eq!(answer(&any).unwrap(), "3");
        let step = format!("15 {} 2 b", numbers[0].clone() + &numbers[3]);
        assert_eq!(answer(&step).unwrap(), "10");
        assert_eq!(answer("15 - ffffffffffffffff 0").unwrap(), "3");
        assert!(answer(&format!("17 {file} 2 4")).is_err());
    }

    /// Of the rows 10, 01, 01 row 1 is hit by 11 alone; one row 0 is hit by no string.
    #[test]
    fn answers_lines_of_wanted_rows() {
        let file = "0b00200003000200804040";
        assert_eq!(answer(&format!("18 {file} 1 1")).unwrap(), "0 1 c0");
        assert_eq!(answer(&format!("18 {file} 1 2")).unwrap(), "0 1 c0");
        assert_eq!(answer(&format!("18 {file} 1 0")).unwrap(), "d");
        assert_eq!(answer(&format!("18 {file} 3 0")).unwrap(), "3");
        let any = format!("18 {file} ffffffffffffffff 1");
        assert_eq!(answer(&any).unwrap(), "3");
        let zero = "090020000100010000";
        assert_eq!(answer(&format!("18 {zero} 0 1")).unwrap(), "0 0 -");
        assert_eq!(answer(&format!("18 {zero} 0 0")).unwrap(), "d");
        assert!(answer(&format!("18 {file} 1")).is_err());
        assert!(answer(&format!("18 {file} 1 1 1")).is_err());
    }

    /// Of five words 2 and 1 are reserved: the first may draw at most 4, and with its cap 3.
    #[test]
    fn answers_lines_of_pools() {
        let signers = |drawn: u32| format!("0000000200000003{drawn:08x}0000000100000001{:08x}", 0);
        let opened = format!("0 {}", signers(0));
        assert_eq!(answer(&format!("19 5 {}", signers(9))).unwrap(), opened);
        assert_eq!(answer(&format!("19 2 {}", signers(0))).unwrap(), "3");
        let granted = format!("0 1 {}", signers(3));
        assert_eq!(
            answer(&format!("1a 5 {} 0 2", signers(1))).unwrap(),
            granted
        );
        for (words, signer, q, number) in [(5, 2, 0, "11"), (5, 0, 3, "12"), (3, 0, 2, "13")] {
            let given = format!("1a {words} {} {signer} {q}", signers(1));
            assert_eq!(answer(&given).unwrap(), number);
        }
        assert_eq!(answer(&format!("1b 4 {}", signers(3))).unwrap(), opened);
        assert_eq!(answer(&format!("1b 3 {}", signers(3))).unwrap(), "3");
        assert_eq!(answer("1a 0 - 0 0").unwrap(), "3");
        assert!(answer(&format!("19 5 {}", &signers(0)[8..])).is_err());
        assert!(answer(&format!("1a 5 {} 0", signers(0))).is_err());
        assert!(answer(&format!("1b 5 {} 0", signers(0))).is_err());
    }
}
