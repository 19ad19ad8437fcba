//! `premises SEED`: for each premise of demand 3 a small list of calls whose conclusions fail
//! once that premise alone is dropped.

use std::process::ExitCode;

use harness::case::Case;
use harness::compare::{State, perform};
use harness::demand3::{Demand3Counts, PREMISES, Premise, judge};
use harness::generate;
use harness::oracle::Oracle;
use harness::shrink::shrink;

/// How many cases are tried for a premise.
const TRIED: u64 = 200_000;

fn main() -> ExitCode {
    let Some(seed) = std::env::args().nth(1).and_then(|seed| seed.parse().ok()) else {
        eprintln!("usage: premises SEED");
        return ExitCode::from(2);
    };
    let mut oracle = Oracle::default();
    let mut all_found = true;
    for (premise, name) in PREMISES {
        let failing = (0..TRIED).map(|number| generate::case(seed, number)).find(|case| failure(&mut oracle, case, premise).is_some());
        let Some(case) = failing else {
            println!("without \"{name}\": no case found\n");
            all_found = false;
            continue;
        };
        let small = shrink(case, &mut |case| failure(&mut oracle, case, premise).is_some());
        println!("without \"{name}\": {}\n{small}", failure(&mut oracle, &small, premise).unwrap_or_default());
    }
    if all_found { ExitCode::SUCCESS } else { ExitCode::FAILURE }
}

/// How demand 3 fails on a case with a premise dropped.
fn failure(oracle: &mut Oracle, case: &Case, premise: Premise) -> Option<String> {
    oracle.new_case(true);
    let mut state = State::of(case);
    let answers: Vec<_> = case.calls.iter().map(|&call| perform(oracle, case, call, &mut state)).collect();
    judge(case, &answers, &state.area, Some(premise), &mut Demand3Counts::default()).err()
}
