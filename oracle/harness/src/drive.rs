//! A run: cases by the seed, compared until enough calls were made.

use std::time::Instant;

use crate::buckets::Counts;
use crate::case::Case;
use crate::compare::compare;
use crate::demand3::{self, Demand3Counts};
use crate::generate;
use crate::numbered::{self, NumberedCounts};
use crate::oracle::Oracle;
use crate::packages::{self, PackageCounts};
use crate::random::Random;
use crate::readings::{self, ReadingCounts};
use crate::references;
use crate::shrink::shrink;
use crate::side::Linker;

/// Compares the oracle with `other` on at least `count` calls, and prints what was reached.
/// True if they never disagree and every bucket is reached.
pub fn run(seed: u64, count: u64, other: &mut dyn Linker) -> bool {
    let start = Instant::now();
    let mut oracle = Oracle::default();
    let mut counts = Counts::default();
    let mut reading_counts = ReadingCounts::default();
    let mut demand3_counts = Demand3Counts::default();
    if let Err(message) = references::every_byte(&mut oracle, other, &mut reading_counts) {
        println!("seed {seed}, case 0 fails: {message}");
        return false;
    }
    let mut number = 0;
    while counts.calls < count {
        let case = generate::case(seed, number);
        let mut answers = Vec::new();
        let result = compare(&mut oracle, other, &case, &mut |step| {
            counts.observe(step);
            answers.push(step.answer);
        });
        let Ok(after) = result else {
            println!("seed {seed}, case {number} fails; the smallest case found:");
            report(&mut oracle, other, case);
            return false;
        };
        if let Err(message) = demand3::judge(&case, &answers, &after.area, None, &mut demand3_counts) {
            println!("seed {seed}, case {number}: {message}\n{case}");
            return false;
        }
        let mut random = Random::for_case(!seed, number);
        if let Err(message) = readings::compare(&mut oracle, other, &mut random, &case, &mut reading_counts) {
            println!("seed {seed}, case {number} fails: {message}");
            return false;
        }
        number += 1;
    }
    let Some(package_counts) = run_packages(seed, count, &mut oracle, other, &mut demand3_counts) else { return false };
    let Some(numbered_counts) = run_numbered(seed, count / 4, &mut oracle, other) else { return false };
    let (package_summary, packages_reached) = package_counts.summary();
    let (numbered_summary, numbered_reached) = numbered_counts.summary();
    let (reading_summary, readings_reached) = reading_counts.summary();
    let (demand3_summary, demand3_reached) = demand3_counts.summary();
    let (summary, reached) = counts.summary();
    println!("{reading_summary}\n{demand3_summary}\n{package_summary}\n{numbered_summary}\n{summary}");
    println!("seed {seed}: {number} cases in {:.1} s, no disagreement", start.elapsed().as_secs_f64());
    let all_reached = reached && readings_reached && demand3_reached && packages_reached && numbered_reached;
    if !all_reached {
        println!("a bucket was never reached");
    }
    all_reached
}

/// At least `count` calls of class kind 3, judged by the harness alone; none if the sides disagree.
fn run_packages(
    seed: u64,
    count: u64,
    oracle: &mut Oracle,
    other: &mut dyn Linker,
    demand3_counts: &mut Demand3Counts,
) -> Option<PackageCounts> {
    let mut counts = PackageCounts::default();
    let mut number = 0;
    while counts.calls < count {
        let case = generate::packages(seed, number);
        let mut answers = Vec::new();
        let result = compare(oracle, other, &case, &mut |step| {
            counts.observe(step);
            answers.push(step.answer);
        });
        let Ok(after) = result else {
            println!("seed {seed}, case {number} of kind 3 fails; the smallest case found:");
            report(oracle, other, case);
            return None;
        };
        let judged = demand3::judge(&case, &answers, &after.area, None, demand3_counts)
            .and_then(|()| packages::as_kind_0(oracle, &case, &answers, &after.area, &mut counts));
        if let Err(message) = judged {
            println!("seed {seed}, case {number} of kind 3: {message}\n{case}");
            return None;
        }
        number += 1;
    }
    Some(counts)
}

/// At least `count` calls by lists of any content; none if the sides disagree.
fn run_numbered(seed: u64, count: u64, oracle: &mut Oracle, other: &mut dyn Linker) -> Option<NumberedCounts> {
    let mut counts = NumberedCounts::default();
    let mut number = 0;
    while counts.calls < count {
        let (case, kind) = generate::numbered(seed, number);
        if numbered::judge(oracle, other, &case, kind, &mut counts).is_err() {
            println!("seed {seed}, case {number} of a list of {kind} fails; the smallest case found:");
            let judge = |case: &Case, oracle: &mut Oracle, other: &mut dyn Linker| {
                numbered::judge(oracle, other, case, kind, &mut NumberedCounts::default())
            };
            let small = shrink(case, &mut |case| judge(case, oracle, other).is_err());
            println!("{small}\n{}", judge(&small, oracle, other).err().unwrap_or_default());
            return None;
        }
        number += 1;
    }
    Some(counts)
}

/// Shrinks a failing case and prints it.
fn report(oracle: &mut Oracle, other: &mut dyn Linker, case: Case) {
    let small = shrink(case, &mut |case| compare(oracle, other, case, &mut |_| {}).is_err());
    println!("{small}");
    if let Err(disagreement) = compare(oracle, other, &small, &mut |_| {}) {
        println!("call {}: {}", disagreement.call + 1, disagreement.difference);
    }
}
