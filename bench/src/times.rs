//! Times of both sides, repeated.

use std::time::Duration;

use harness::oracle::Watch;

use crate::sets;
use crate::sides::{self, Job, Original, Ours, Side};
use crate::watch::{MANY, take_spent, timed, timed_many};

/// How often a time is taken, and how long the measured calls of one take at least.
#[derive(Clone, Copy)]
pub struct Repetitions {
    count: usize,
    least: Duration,
}

pub const FULL: Repetitions = Repetitions { count: 21, least: Duration::from_millis(20) };
pub const FEW: Repetitions = Repetitions { count: 9, least: Duration::from_millis(20) };
pub const QUICK: Repetitions = Repetitions { count: 3, least: Duration::from_millis(1) };

/// Seconds of one run of a job, over as many runs as the least time asks for.
fn seconds(side: &mut dyn Side, job: Job, least: Duration) -> f64 {
    let (watch, calls): (Watch, u32) = if job == Job::Found { (timed_many, MANY) } else { (timed, 1) };
    let (mut spent, mut runs) = (Duration::ZERO, 0);
    while spent < least || runs == 0 {
        side.run(job, watch);
        spent += take_spent();
        runs += 1;
    }
    spent.as_secs_f64() / f64::from(runs * calls)
}

/// Seconds of each repetition, this linker's beside the original's. The sides take turns to be first.
pub fn pairs(ours: &mut Ours, original: &mut Original, job: Job, repetitions: Repetitions) -> Vec<(f64, f64)> {
    let pair = |repetition: usize| {
        if repetition.is_multiple_of(2) {
            let first = seconds(ours, job, repetitions.least);
            (first, seconds(original, job, repetitions.least))
        } else {
            let first = seconds(original, job, repetitions.least);
            (seconds(ours, job, repetitions.least), first)
        }
    };
    (0..repetitions.count).map(pair).collect()
}

/// The smallest, the middle and the largest of some numbers.
pub fn spread(numbers: impl Iterator<Item = f64>) -> [f64; 3] {
    let mut numbers: Vec<f64> = numbers.collect();
    numbers.sort_by(f64::total_cmp);
    [numbers[0], numbers[numbers.len() / 2], numbers[numbers.len() - 1]]
}

/// Prints the middle nanoseconds of a job that this linker does alone.
fn print_alone(ours: &mut Ours, name: &str, job: Job, repetitions: Repetitions) {
    let [_, middle, _] = spread((0..repetitions.count).map(|_| seconds(ours, job, repetitions.least)));
    println!("{name},{},{},{:.1},,,,", job.name(), repetitions.count, 1e9 * middle);
}

/// Prints, for each set and job, the middle nanoseconds of both sides and the ratio's spread. Both sides are
/// compared before anything is timed. The original links no class of kind 3.
pub fn print(repetitions: Repetitions) -> Result<(), String> {
    println!("set,job,repetitions,ours,original,ratio,least,most");
    for set in sets::all() {
        sides::check(&set)?;
        let (mut ours, mut original) = (Ours::new(&set), Original::new(&set));
        for job in Job::ALL {
            if !job.is_shared() {
                print_alone(&mut ours, &set.name, job, repetitions);
                continue;
            }
            let line = format!("{},{},{}", set.name, job.name(), repetitions.count);
            let pairs = pairs(&mut ours, &mut original, job, repetitions);
            let [_, first, _] = spread(pairs.iter().map(|pair| pair.0));
            let [_, second, _] = spread(pairs.iter().map(|pair| pair.1));
            let [least, ratio, most] = spread(pairs.iter().map(|pair| pair.0 / pair.1));
            println!("{line},{:.1},{:.1},{ratio:.4},{least:.4},{most:.4}", 1e9 * first, 1e9 * second);
        }
    }
    let packaged = sets::packaged();
    print_alone(&mut Ours::new(&packaged), &packaged.name, Job::Link, repetitions);
    Ok(())
}
