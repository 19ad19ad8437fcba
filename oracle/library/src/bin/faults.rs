//! `faults SEED COUNT`: at least COUNT malformed calls on the compiled Rattle library behind guards. An
//! access outside a slice ends the program; the answers and all memory must be the original Rust's, and
//! memory after a refusal what it was.

use std::collections::BTreeMap;
use std::ffi::c_int;
use std::process::ExitCode;
use std::sync::atomic::{AtomicU64, Ordering};
use std::time::Instant;

use harness::case::{Call, Case};
use harness::class_files;
use harness::compare;
use harness::forms;
use harness::names;
use harness::oracle::Oracle;
use harness::orders;
use harness::random::Random;
use harness::readings::{descriptor, lent_words, read};
use harness::references;
use harness::shrink::shrink;
use harness::side::{Answer, Linker};
use harness::writings;
use library::guarded::Guarded;
use library::malformed;

// The C library, as Linux has it.
unsafe extern "C" {
    fn signal(number: c_int, handler: extern "C" fn(c_int)) -> usize;
    fn write(file: c_int, bytes: *const u8, length: usize) -> isize;
    fn _exit(status: c_int) -> !;
}

const BUS_ERROR: c_int = 7;
const INVALID_ACCESS: c_int = 11;

/// The case that is run.
static CASE: AtomicU64 = AtomicU64::new(0);

/// Says which case accessed what it was not lent, and ends the program.
extern "C" fn invalid_access(_: c_int) {
    let mut line = *b"invalid access in case                     \n";
    let mut number = CASE.load(Ordering::Relaxed);
    for digit in line[23..43].iter_mut().rev() {
        *digit = b'0' + (number % 10) as u8;
        number /= 10;
    }
    unsafe {
        write(1, line.as_ptr(), line.len());
        _exit(1)
    }
}

#[derive(Default)]
struct Counts {
    calls: u64,
    rows: BTreeMap<(&'static str, u32), u64>,
}

impl Counts {
    fn count(&mut self, what: &'static str, answer: Answer) {
        self.count_row(what, answer.refusal);
    }

    fn count_row(&mut self, what: &'static str, row: u32) {
        self.calls += 1;
        *self.rows.entry((what, row)).or_default() += 1;
    }
}

fn main() -> ExitCode {
    let arguments: Vec<u64> = std::env::args().skip(1).filter_map(|argument| argument.parse().ok()).collect();
    let &[seed, count] = arguments.as_slice() else {
        eprintln!("usage: faults SEED COUNT");
        return ExitCode::from(2);
    };
    for number in [BUS_ERROR, INVALID_ACCESS] {
        unsafe { signal(number, invalid_access) };
    }
    let start = Instant::now();
    let (mut oracle, mut guarded, mut counts) = (Oracle::default(), Guarded::default(), Counts::default());
    let mut number = 0;
    while counts.calls < count {
        CASE.store(number, Ordering::Relaxed);
        if let Err(message) = one(seed, number, &mut oracle, &mut guarded, &mut counts) {
            println!("seed {seed}, case {number} fails: {message}");
            return ExitCode::FAILURE;
        }
        number += 1;
    }
    for ((what, row), count) in &counts.rows {
        let verdict = if *row == 0 { "accepted".to_owned() } else { format!("refused by row {row}") };
        println!("{count:>10}  {what} {verdict}");
    }
    let time = start.elapsed().as_secs_f64();
    println!("seed {seed}: {number} cases, {} calls in {time:.1} s, no invalid access, no disagreement", counts.calls);
    ExitCode::SUCCESS
}

/// A case's calls, a reading, of a class sheet loosely too, a writing, a conversion, an order, a descriptor, a
/// reference bitmap, two names and a class file.
fn one(seed: u64, number: u64, oracle: &mut Oracle, guarded: &mut Guarded, counts: &mut Counts) -> Result<(), String> {
    let case = malformed::case(seed, number);
    let result = compare::compare(oracle, guarded, &case, &mut |step| {
        let what = match step.call {
            Call::Link { .. } => "link",
            Call::Ask { .. } => "ask",
            Call::Missing { .. } => "missing slots",
            Call::Fill => "filling",
        };
        counts.count(what, step.answer);
    });
    if result.is_err() {
        return Err(smallest(oracle, guarded, case));
    }
    let mut random = Random::for_case(seed, !number);
    let reading = malformed::reading(&mut random, &case);
    let before = lent_words(reading.lent);
    let (mut expected, mut found) = (before.clone(), before.clone());
    let (judged, given) = (read(oracle, &reading, &mut expected), read(guarded, &reading, &mut found));
    if judged != given || expected != found || (judged.refusal != 0 && found != before) {
        return Err(format!("a reading: oracle {judged:?}, library {given:?}\n{} words lent, bytes {:?}", reading.lent, reading.bytes));
    }
    counts.count(if reading.is_class_sheet { "class sheet" } else { "ABI sheet" }, given);
    if reading.is_class_sheet {
        let (mut expected, mut found) = (before.clone(), before.clone());
        let judged = oracle.read_unordered_sheet(&reading.bytes, &mut expected);
        let given = guarded.read_unordered_sheet(&reading.bytes, &mut found);
        if judged != given || expected != found || (judged.refusal != 0 && found != before) {
            return Err(format!(
                "a loose reading: oracle {judged:?}, library {given:?}\n{} words lent, bytes {:?}",
                reading.lent, reading.bytes
            ));
        }
        counts.count("class sheet loosely", given);
    }
    let (descriptor, flags) = descriptor(&mut random);
    let (judged, given) = (oracle.argument_words(&descriptor, flags), guarded.argument_words(&descriptor, flags));
    if judged != given {
        return Err(format!("{:?} with flags {flags:#x}: oracle {judged:?}, library {given:?}", descriptor.escape_ascii()));
    }
    counts.count("argument words", given);
    counts.count("reference words", references::judge(oracle, guarded, &malformed::bitmap(&mut random))?);
    counts.count("order", orders::judge(oracle, guarded, &malformed::order(&mut random, &case))?.0);
    counts.count("writing", writings::judge(oracle, guarded, &malformed::writing(&mut random, &case))?);
    let conversion = malformed::conversion(&mut random, &case);
    counts.count(if conversion.is_old { "widening" } else { "narrowing" }, forms::judge(oracle, guarded, &conversion)?.0);
    counts.count("names", names::judge(oracle, guarded, &malformed::names(&mut random))?);
    counts.count_row("class file", class_files::judge(oracle, guarded, &malformed::class_file(&mut random))?.refusal);
    Ok(())
}

/// The smallest case found on which the two sides still differ.
fn smallest(oracle: &mut Oracle, guarded: &mut Guarded, case: Case) -> String {
    let small = shrink(case, &mut |case| compare::compare(oracle, guarded, case, &mut |_| {}).is_err());
    let difference = compare::compare(oracle, guarded, &small, &mut |_| {}).err().map(|found| found.difference);
    format!("{}\n{small}", difference.unwrap_or_default())
}
