//! Writes lines of trials, answers them, and compares a program's answers with its own.

use std::env;
use std::error::Error;
use std::io::{self, BufWriter, Read, Write};
use std::process::{Command, ExitCode, Stdio};
use std::thread;

use model::generate::{Trial, trials};
use model::line::Line;
use model::machine::Machine;
use model::tally::Tally;

const USAGE: &str = "usage: model write SEED CALLS, model answer < LINES, or model compare SEED CALLS PROGRAM ARGUMENTS..";

fn main() -> ExitCode {
    let arguments: Vec<String> = env::args().skip(1).collect();
    let arguments: Vec<&str> = arguments.iter().map(String::as_str).collect();
    let done = match arguments[..] {
        ["write", seed, calls] => write(seed, calls),
        ["answer"] => answer(),
        ["compare", seed, calls, program, ref arguments @ ..] => compare(seed, calls, program, arguments),
        _ => Err(USAGE.into()),
    };
    done.unwrap_or_else(|error| {
        eprintln!("model: {error}");
        ExitCode::FAILURE
    })
}

/// Fresh trials from a seed.
fn fresh(seed: &str, calls: &str) -> Result<Vec<Trial>, Box<dyn Error>> {
    Ok(trials(seed.parse()?, calls.parse()?))
}

fn write(seed: &str, calls: &str) -> Result<ExitCode, Box<dyn Error>> {
    let mut out = BufWriter::new(io::stdout().lock());
    for trial in fresh(seed, calls)? {
        writeln!(out, "{}", trial.line)?;
    }
    out.flush()?;
    Ok(ExitCode::SUCCESS)
}

fn answer() -> Result<ExitCode, Box<dyn Error>> {
    let mut machine = Machine::default();
    let mut out = BufWriter::new(io::stdout().lock());
    for (index, text) in io::stdin().lines().enumerate() {
        let line: Line = text?.parse().map_err(|why| format!("line {}: {why}", index + 1))?;
        writeln!(out, "{}", machine.play(&line))?;
    }
    out.flush()?;
    Ok(ExitCode::SUCCESS)
}

fn compare(seed: &str, calls: &str, program: &str, arguments: &[&str]) -> Result<ExitCode, Box<dyn Error>> {
    let trials = fresh(seed, calls)?;
    let lines: String = trials.iter().map(|trial| format!("{}\n", trial.line)).collect();
    let (said, ended) = run(program, arguments, lines)?;
    let mut said = said.split_terminator('\n');
    let differs = trials.iter().enumerate().find_map(|(index, trial)| {
        let expected = trial.answer.to_string();
        let (expected, found) =
            expected.split('\n').map(|expected| (expected, said.next())).find(|&(expected, found)| found != Some(expected))?;
        let found = found.unwrap_or("nothing more");
        Some((index, format!("line {}: {}\nthe model:   {expected}\nthe program: {found}", index + 1, trial.line)))
    });
    let agreeing = differs.as_ref().map_or(trials.len(), |(index, _)| *index);
    println!("They agree on these.\n{}", Tally::of(&trials[..agreeing]));
    if let Some((_, difference)) = &differs {
        println!("They differ here.\n{difference}");
    } else if let Some(more) = said.next() {
        println!("The program says more: {more}");
    } else if ended {
        return Ok(ExitCode::SUCCESS);
    } else {
        println!("The program does not end well.");
    }
    Ok(ExitCode::FAILURE)
}

/// Runs the program on the lines: what it prints, and whether it ends well.
fn run(program: &str, arguments: &[&str], lines: String) -> Result<(String, bool), Box<dyn Error>> {
    let mut child = Command::new(program).args(arguments).stdin(Stdio::piped()).stdout(Stdio::piped()).spawn()?;
    let mut input = child.stdin.take().ok_or("the program has no standard input")?;
    // A program that ends early leaves lines unread: what it has printed tells.
    let writer = thread::spawn(move || _ = input.write_all(lines.as_bytes()));
    let mut said = Vec::new();
    child.stdout.take().ok_or("the program has no standard output")?.read_to_end(&mut said)?;
    writer.join().map_err(|_| "the lines could not be written")?;
    Ok((String::from_utf8_lossy(&said).into_owned(), child.wait()?.success()))
}
