//! The simulator of Chord rings in plain sequential Rust, by the fastest data structures that we know. The
//! rules are the files of the plain program (main.rs); what they act on is in the folder `fast`.

mod audits;
mod circle;
#[path = "fast/draws.rs"]
mod draws;
mod events;
#[path = "fast/fingers.rs"]
mod fingers;
mod joins;
mod leaves;
mod lines;
#[path = "fast/lists.rs"]
mod lists;
mod lookups;
#[path = "fast/queue.rs"]
mod queue;
mod report;
mod rules;
mod scenario;
#[path = "fast/search.rs"]
mod search;
mod simulation;
mod spans;
mod state;
#[path = "fast/trace.rs"]
mod trace;
mod turn;

use std::env;
use std::fs;
use std::io::{self, Write as _};
use std::process::ExitCode;

use circle::Ident;
use report::Report;
use scenario::Scenario;
use simulation::{Failure, Simulation};
use trace::Trace;

/// How many words of the flat form come before the number of bits.
const BITS_WORD: usize = 21;

fn main() -> ExitCode {
    let arguments: Vec<String> = env::args().collect();
    let [_, scenario, trace] = arguments.as_slice() else {
        eprintln!("usage: fast SCENARIO TRACE (the flat form of a scenario, and the trace file)");
        return ExitCode::from(2);
    };
    match run(scenario, trace).and_then(|report| print(&report)) {
        Ok(()) => ExitCode::SUCCESS,
        Err(failure) => {
            eprintln!("failed: {failure}");
            ExitCode::from(3)
        }
    }
}

/// Runs the scenario of a file, and writes its trace to another one. Identifiers are of 64 bits if that is
/// enough.
fn run(scenario: &str, trace: &str) -> Result<Report, Failure> {
    let text = fs::read_to_string(scenario).map_err(Failure::Read)?;
    if bits_of(&text) <= u64::BITS {
        run_text::<u64>(&text, trace)
    } else {
        run_text::<u128>(&text, trace)
    }
}

/// The bits of an identifier in the flat form of a scenario.
fn bits_of(text: &str) -> u32 {
    let word = text.split_ascii_whitespace().nth(BITS_WORD);
    let bits = word.and_then(|word| word.parse().ok());
    bits.expect("the flat form has the number of bits")
}

/// Runs the scenario of a text, whose identifiers are numbers of this type.
fn run_text<I: Ident>(text: &str, trace: &str) -> Result<Report, Failure> {
    let scenario = Scenario::<I>::read(text);
    let trace = Trace::create(trace).map_err(|_| Failure::Write)?;
    Simulation::new(&scenario, trace).run()
}

/// Prints the report.
fn print(report: &Report) -> Result<(), Failure> {
    let mut out = io::stdout().lock();
    write!(out, "{report}")
        .and_then(|()| out.flush())
        .map_err(|_| Failure::Write)
}
