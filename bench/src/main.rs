//! Measures this linker, through its static library, against the original Rust (docs/PERFORMANCE.md).

mod count;
mod growth;
mod sets;
mod sides;
mod stack;
mod times;
mod watch;

use std::process::ExitCode;

const USAGE: &str = "usage: bench check
       bench times [--quick]
       bench growth
       bench count
       bench stack SEED COUNT [LIMIT]";

fn main() -> ExitCode {
    let arguments: Vec<String> = std::env::args().skip(1).collect();
    let arguments: Vec<&str> = arguments.iter().map(String::as_str).collect();
    let result = match arguments[..] {
        ["check"] => check(),
        ["times"] => times::print(times::FULL),
        ["times", "--quick"] => times::print(times::QUICK),
        ["growth"] => growth::print(times::FEW),
        ["count"] => count::run(),
        ["stack", seed, count] => stack::print(seed, count, None),
        ["stack", seed, count, limit] => stack::print(seed, count, Some(limit)),
        _ => Err(USAGE.to_owned()),
    };
    if let Err(message) = result {
        eprintln!("{message}");
        return ExitCode::FAILURE;
    }
    ExitCode::SUCCESS
}

/// Sees that both sides give the same on every set and on every point of the growth.
fn check() -> Result<(), String> {
    let made = growth::points().into_iter().map(|point| point.set());
    for set in sets::all().into_iter().chain(made) {
        let slots = sides::check(&set)?;
        println!("{}: {} classes, largest table {slots} slots, both sides give the same", set.name, set.case.set[0]);
    }
    Ok(())
}
