//! The baseline: `run` and `list` of `cmwq` as plain Rust, without proofs.
//!
//!     baseline run FILE     runs a scenario of one actor
//!     baseline list FILE    writes the listing of a scenario
//!
//! FILE can be `-`, standard input. A text that spells no scenario is refused with a line on standard error.
mod decimal;
mod heap;
mod lines;
mod listing;
mod lists;
mod machine;
mod moves;
mod names;
mod output;
mod parse;
mod perform;
mod scenario;
mod words;

use crate::lines::Lines;
use crate::machine::Machine;
use crate::output::Output;
use crate::scenario::Scenario;
use std::fs::File;
use std::io::{self, Read};
use std::process::ExitCode;

/// The most instructions of a run.
const INSTRUCTIONS: u64 = 1_048_576;

/// Why nothing, or not all, was done: the status, and a line.
type Failure = (u8, String);

fn main() -> ExitCode {
    let words: Vec<String> = std::env::args().skip(1).collect();
    let done = match &words.iter().map(String::as_str).collect::<Vec<_>>()[..] {
        ["run", path] => read(path).and_then(|scenario| run(&scenario)),
        ["list", path] => read(path).and_then(|scenario| list(&scenario)),
        _ => Err((2, "usage: baseline run|list FILE|-".to_string())),
    };
    match done {
        Ok(()) => ExitCode::SUCCESS,
        Err((status, line)) => {
            eprintln!("{line}");
            ExitCode::from(status)
        }
    }
}

/// All bytes of a file, or of standard input.
fn bytes_of(path: &str) -> io::Result<Vec<u8>> {
    let mut bytes = Vec::new();
    if path == "-" {
        io::stdin().lock().read_to_end(&mut bytes)?;
    } else {
        let mut file = File::open(path)?;
        // Room for the padding, too, so that the text needn't be copied.
        bytes.reserve(file.metadata()?.len() as usize + 64);
        file.read_to_end(&mut bytes)?;
    }
    Ok(bytes)
}

fn read(path: &str) -> Result<Scenario, Failure> {
    let text = bytes_of(path).map_err(|error| (3, format!("{path}: {error}")))?;
    parse::parse(text).map_err(|(line, why)| (1, format!("line {line}: {why:?}")))
}

fn finished(output: Output) -> Result<(), Failure> {
    output.finish().map_err(|error| (3, format!("standard output: {error}")))
}

fn run(scenario: &Scenario) -> Result<(), Failure> {
    let [actor] = &scenario.actors[..] else {
        return Err((1, "the scenario hasn't exactly one actor".to_string()));
    };
    if actor.lines.iter().map(|line| u64::from(line.times)).sum::<u64>() > INSTRUCTIONS {
        return Err((4, "the actor has more instructions than a run can have".to_string()));
    }
    let mut machine = Machine::new(scenario, Lines::new(scenario, Output::new()));
    for line in &actor.lines {
        machine.perform(line);
    }
    finished(machine.lines.into_output())
}

fn list(scenario: &Scenario) -> Result<(), Failure> {
    let mut output = Output::new();
    listing::list(scenario, &mut output);
    finished(output)
}
