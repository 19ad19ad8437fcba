//! Every job once on each side, for callgrind to count (bench/count).

use crate::growth;
use crate::sets::{self, ClassSet};
use crate::sides::{Job, Original, Ours, Side};
use crate::watch::{bench_counted, bench_dump, plain};

/// Runs each job twice, of which the second time is counted, and prints what the next dump holds.
pub fn run() -> Result<(), String> {
    println!("set,job,side");
    for set in sets::all() {
        count(&set, &Job::ALL);
    }
    for point in growth::points() {
        count(&point.set(), &[Job::Link]);
    }
    Ok(())
}

fn count(set: &ClassSet, jobs: &[Job]) {
    let (mut ours, mut original) = (Ours::new(set), Original::new(set));
    for &job in jobs {
        once(set, job, "ours", &mut ours);
        if job.is_shared() {
            once(set, job, "original", &mut original);
        }
    }
}

fn once(set: &ClassSet, job: Job, name: &str, side: &mut dyn Side) {
    side.run(job, plain);
    side.run(job, bench_counted);
    println!("{},{},{name}", set.name, job.name());
    bench_dump();
}
