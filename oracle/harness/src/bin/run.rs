//! `run SEED COUNT`: compares the oracle with the model on at least COUNT calls; `run --before SEED COUNT`: the model by the rule before two inherited signatures on
//! one fixed slot were told apart with the model; `run --kept SEED COUNT`: after each call of the model, each interface table kept with one built afresh.

use std::process::ExitCode;

use harness::model::Model;
use harness::{before, drive, kept};

fn main() -> ExitCode {
    let run = match std::env::args().nth(1).as_deref() {
        Some("--before") => before::run,
        Some("--kept") => kept::run,
        _ => drive::run,
    };
    let arguments: Vec<u64> = std::env::args().skip(1).filter_map(|argument| argument.parse().ok()).collect();
    let &[seed, count] = arguments.as_slice() else {
        eprintln!("usage: run [--before | --kept] SEED COUNT");
        return ExitCode::from(2);
    };
    if run(seed, count, &mut Model) { ExitCode::SUCCESS } else { ExitCode::FAILURE }
}
