//! The simulator of Chord rings in plain sequential Rust: a yardstick for chordsim. It follows the
//! rules of docs/rules.md and writes the same trace and report.

mod audits;
mod circle;
mod draws;
mod events;
mod fingers;
mod joins;
mod leaves;
mod lines;
mod lists;
mod lookups;
mod queue;
mod report;
mod rules;
mod scenario;
mod search;
mod simulation;
mod spans;
mod state;
mod trace;
mod turn;

use std::env;
use std::fs;
use std::io::{self, Write as _};
use std::process::ExitCode;

use report::Report;
use scenario::Scenario;
use simulation::{Failure, Simulation};
use trace::Trace;

fn main() -> ExitCode {
    let arguments: Vec<String> = env::args().collect();
    let [_, scenario, trace] = arguments.as_slice() else {
        eprintln!("usage: plain SCENARIO TRACE (the flat form of a scenario, and the trace file)");
        return ExitCode::from(2);
    };
    match run(scenario, trace).and_then(|report| print(&report)) {
        Ok(()) => ExitCode::SUCCESS,
        Err(failure) => {
            eprintln!("failed: {failure}");
            ExitCode::from(3)
        }
    }
}

/// Runs the scenario of a file, and writes its trace to another one.
fn run(scenario: &str, trace: &str) -> Result<Report, Failure> {
    let text = fs::read_to_string(scenario).map_err(Failure::Read)?;
    let scenario = Scenario::<u128>::read(&text);
    let trace = Trace::create(trace).map_err(|_| Failure::Write)?;
    Simulation::new(&scenario, trace).run()
}

/// Prints the report.
fn print(report: &Report) -> Result<(), Failure> {
    let mut out = io::stdout().lock();
    write!(out, "{report}")
        .and_then(|()| out.flush())
        .map_err(|_| Failure::Write)
}
