//! Prints test vectors, one a line: what is given, ` = `, and the answer. Or stores them, for the
//! engine's programs that run them.

use reference::vectors::answer::answer;
use reference::vectors::each_given;
use reference::vectors::line::{Malformed, Task};
use std::collections::BTreeMap;
use std::fs;
use std::io::{self, BufRead, BufWriter, Write};
use std::path::Path;
use std::process::ExitCode;

const USAGE: &str = "usage: vectors [--scale N] [--cases | --answers]
       vectors --stdin
       vectors --store FOLDER

  --scale N   as many rounds of random cases (1 where nothing is said)
  --cases     only what is given, without the answers
  --answers   only the answers
  --stdin     answers the lines on standard input; what follows ` = ` there is left out of account
  --store     writes FOLDER/NAME/stdin, the cases of scale 1 that program NAME runs, and
              FOLDER/NAME/stdout, their answers";

/// What to print of each vector.
#[derive(Clone, Copy, PartialEq, Eq)]
enum Part {
    Both,
    Cases,
    Answers,
}

/// What the arguments ask for.
enum Request {
    Make { scale: usize, part: Part },
    Answer,
    Store { folder: String },
}

fn request(arguments: &[String]) -> Option<Request> {
    if arguments == ["--stdin"] {
        return Some(Request::Answer);
    }
    if let [option, folder] = arguments {
        if option == "--store" {
            let folder = folder.clone();
            return Some(Request::Store { folder });
        }
    }
    let (mut scale, mut part) = (1, Part::Both);
    let mut rest = arguments.iter();
    while let Some(argument) = rest.next() {
        match argument.as_str() {
            "--scale" => scale = rest.next()?.parse().ok()?,
            "--cases" => part = Part::Cases,
            "--answers" => part = Part::Answers,
            _ => return None,
        }
    }
    Some(Request::Make { scale, part })
}

fn malformed(given: &str, fault: Malformed) -> io::Error {
    io::Error::other(format!("{}: {given}", fault.0))
}

/// The line for what is given, or why there is none.
fn line(given: &str, part: Part) -> io::Result<String> {
    if part == Part::Cases {
        return Ok(given.to_string());
    }
    let answer = answer(given).map_err(|fault| malformed(given, fault))?;
    Ok(match part {
        Part::Answers => answer,
        _ => format!("{given} = {answer}"),
    })
}

fn make(scale: usize, part: Part) -> io::Result<()> {
    let mut out = BufWriter::new(io::stdout().lock());
    let mut outcome = Ok(());
    each_given(scale, |given| {
        if outcome.is_ok() {
            outcome = line(given, part).and_then(|text| writeln!(out, "{text}"));
        }
    });
    outcome.and_then(|()| out.flush())
}

/// The cases that one program runs, and their answers.
#[derive(Default)]
struct Stored {
    stdin: String,
    stdout: String,
}

fn store(folder: &Path) -> io::Result<()> {
    let mut programs: BTreeMap<&str, Stored> = BTreeMap::new();
    let mut outcome = Ok(());
    each_given(1, |given| {
        if outcome.is_ok() {
            outcome = Task::of(given)
                .and_then(|task| {
                    let stored = programs.entry(task.program()).or_default();
                    stored.stdin += &format!("{given}\n");
                    stored.stdout += &format!("{}\n", answer(given)?);
                    Ok(())
                })
                .map_err(|fault| malformed(given, fault));
        }
    });
    outcome?;
    for (name, stored) in programs {
        let program = folder.join(name);
        fs::create_dir_all(&program)?;
        fs::write(program.join("stdin"), stored.stdin)?;
        fs::write(program.join("stdout"), stored.stdout)?;
    }
    Ok(())
}

fn answer_lines() -> io::Result<()> {
    let mut out = BufWriter::new(io::stdout().lock());
    for text in io::stdin().lock().lines() {
        let text = text?;
        let given = text.split(" = ").next().unwrap_or("");
        writeln!(out, "{}", line(given, Part::Both)?)?;
    }
    out.flush()
}

fn main() -> ExitCode {
    let arguments: Vec<String> = std::env::args().skip(1).collect();
    let outcome = match request(&arguments) {
        Some(Request::Make { scale, part }) => make(scale, part),
        Some(Request::Answer) => answer_lines(),
        Some(Request::Store { folder }) => store(Path::new(&folder)),
        None => Err(io::Error::other(USAGE)),
    };
    match outcome {
        Ok(()) => ExitCode::SUCCESS,
        Err(fault) => {
            eprintln!("{fault}");
            ExitCode::FAILURE
        }
    }
}
