//! `steps SEED FILE`: for each bucket the smallest calls that reach it, each with all that it is
//! lent and the Rust's answer. The file is little-endian u32 words. A call: kind (0 link, 1 ask,
//! 14 missing slots, 15 filling), class, interface; refusal and the two answer words; the lengths of class words, ABI words, area,
//! stubs, the list of missing slots and the list of numbers; the first five of these; of the list of numbers how many words are not 0, and
//! place and word of each; then class words, area and list of missing slots after the call; of the list of numbers how many words it changed, and place and word of
//! each. Then small calls by lists of numbers of any content, the calls of the telling rows
//! of class kind 3, of missing slots and of numbers, and small calls of the other functions, in the same form: what they read stands for the ABI words, what they write for the
//! area, bytes one to a word, and a number that they take for the class (kinds 2 reference words,
//! 3 reference count, 4 writing, 5 reading loosely, 6 renumbering, 7 and 8 reading a class and an
//! ABI sheet, 9 argument words, 10 names, the second for the area, 11 and 12 making a class sheet
//! of the old form one of the new, and of the new one of the old, 13 a class file, whose targets are
//! the stubs and whose lists and six answer words stand in the area one after the other, the first
//! two's lengths for class and interface; class words are class words).

use std::collections::BTreeMap;
use std::process::ExitCode;

use harness::buckets::Counts;
use harness::case::{Call, Case};
use harness::compare::{State, Step, perform};
use harness::generate;
use harness::oracle::Oracle;
use harness::packages::PackageCounts;
use harness::random::Random;
use harness::side::{Answer, Linker};
use harness::{class_files, forms, names, orders, readings, references, telling, writings};

/// How many cases are looked at, and the most words of a slice.
const LOOKED_AT: u64 = 30_000;
const MOST_WORDS: usize = 12_000;
/// How many calls are kept for a bucket: of any size, and of few words.
const KEPT: usize = 3;
const KEPT_SMALL: usize = 16;
const FEW_WORDS: usize = 800;
/// How many cases of kind 3 are looked at, and the calls kept for a bucket of theirs.
const PACKAGES: u64 = 3_000;
const KEPT_PACKAGES: usize = 16;
/// How many small calls by lists of numbers of any content are kept.
const KEPT_NUMBERED: usize = 300;
/// How many calls of each other function are kept, and their most words.
const OTHERS: usize = 200;
const OTHERS_WORDS: usize = 3_000;

fn main() -> ExitCode {
    let arguments: Vec<String> = std::env::args().skip(1).collect();
    let [seed, file] = arguments.as_slice() else {
        eprintln!("usage: steps SEED FILE");
        return ExitCode::from(2);
    };
    let mut kept: BTreeMap<usize, Vec<Vec<u32>>> = BTreeMap::new();
    let mut packaged: BTreeMap<&str, Vec<Vec<u32>>> = BTreeMap::new();
    let mut oracle = Oracle::default();
    for number in 0..LOOKED_AT {
        for (buckets, words) in calls(&mut oracle, seed.parse().unwrap_or(1), number) {
            for bucket in buckets {
                let list = kept.entry(bucket).or_default();
                list.push(words.clone());
                list.sort_by_key(Vec::len);
                let small = list.partition_point(|words| words.len() <= FEW_WORDS);
                list.truncate(small.clamp(KEPT, KEPT_SMALL));
            }
        }
    }
    for number in 0..PACKAGES {
        let case = generate::packages(seed.parse().unwrap_or(1), number);
        let observe = |step: &Step| {
            let mut counts = PackageCounts::default();
            counts.observe(step);
            counts.reached()
        };
        for (buckets, words) in calls_of(&mut oracle, &case, observe) {
            for bucket in buckets {
                let list = packaged.entry(bucket).or_default();
                if list.len() < KEPT_PACKAGES {
                    list.push(words.clone());
                }
            }
        }
    }
    let seed_number = seed.parse().unwrap_or(1);
    let numbered = (0..).flat_map(|number| calls_of(&mut oracle, &generate::numbered(seed_number, number).0, |_| Vec::<usize>::new()));
    let numbered = numbered.map(|(_, words)| words).filter(|words| words.len() <= FEW_WORDS).take(KEPT_NUMBERED);
    let numbered: Vec<Vec<u32>> = numbered.collect();
    let rows = telling::own_rows();
    let rows = rows.iter().flat_map(|row| calls_of(&mut oracle, &row.case, |_| Vec::<usize>::new())).map(|(_, words)| words);
    let rows: Vec<Vec<u32>> = rows.collect();
    let others = others(&mut oracle, seed.parse().unwrap_or(1));
    let mut chosen: Vec<&Vec<u32>> =
        kept.values().chain(packaged.values()).flatten().chain(&numbered).chain(&rows).chain(&others).collect();
    chosen.sort();
    chosen.dedup();
    let bytes: Vec<u8> = chosen.iter().flat_map(|words| words.iter()).flat_map(|word| word.to_le_bytes()).collect();
    println!(
        "{} and {} buckets, {} of telling rows, {} calls, {} bytes",
        kept.len(),
        packaged.len(),
        rows.len(),
        chosen.len(),
        bytes.len()
    );
    if std::fs::write(file, bytes).is_ok() { ExitCode::SUCCESS } else { ExitCode::FAILURE }
}

/// Calls of the other functions.
fn others(oracle: &mut Oracle, seed: u64) -> Vec<Vec<u32>> {
    let mut random = Random::new(seed);
    let mut kept = Vec::new();
    kept.extend((0..).flat_map(|_| bitmap_calls(oracle, &references::random(&mut random))).filter(is_small).take(OTHERS));
    let writing = |number| writings::random(&mut random, &generate::case(seed, number));
    kept.extend((0..).map(writing).map(|writing| writing_call(oracle, &writing)).filter(is_small).take(OTHERS));
    let conversion = |number| forms::random(&mut random, &generate::case(seed, number));
    kept.extend((0..).map(conversion).map(|conversion| conversion_call(oracle, &conversion)).filter(is_small).take(2 * OTHERS));
    let reading = |number| readings::reading(&mut random, &generate::case(seed, number));
    kept.extend((0..).map(reading).flat_map(|reading| reading_calls(oracle, &reading)).filter(is_small).take(3 * OTHERS));
    kept.extend((0..OTHERS).map(|_| readings::descriptor(&mut random)).map(|(descriptor, flags)| {
        let answer = oracle.argument_words(&descriptor, flags);
        call(9, flags, answer, &[], &wide(&descriptor), &[], &[])
    }));
    let order = |number| orders::random(&mut random, &generate::case(seed, number));
    kept.extend((0..).map(order).map(|order| order_call(oracle, &order)).filter(is_small).take(OTHERS));
    kept.extend((0..OTHERS).map(|_| names::random(&mut random)).map(|names::Names { a, b }| {
        let (answer, second) = (oracle.compare_names(&a, &b), wide(&b));
        call(10, 0, answer, &[], &wide(&a), &second, &second)
    }));
    kept.extend((0..).map(|_| class_file_call(oracle, &class_files::random(&mut random))).filter(is_small).take(5 * OTHERS));
    kept.extend(
        (0..).map(|_| class_file_call(oracle, &class_files::random(&mut random))).filter(|words| !is_small(words)).take(OTHERS / 4),
    );
    kept
}

/// A class file; the lists and the answer words hold 7s before.
fn class_file_call(oracle: &mut Oracle, file: &class_files::FileCall) -> Vec<u32> {
    let before = vec![7; file.fields + file.methods + file.text + 6];
    let (mut fields, mut methods, mut text) = (vec![7; file.fields], vec![7; file.methods], vec![7; file.text]);
    let answer = oracle.read_class_file(&file.bytes, &file.targets, &mut fields, &mut methods, &mut text);
    let head = [13, file.fields as u32, file.methods as u32, answer.refusal, 0, 0];
    let after = [&fields[..], &methods, &text, &answer.words].concat();
    laid(head, [&[], &wide(&file.bytes), &before, &file.targets, &[]], [&[], &after, &[]], [&[], &[]])
}

#[expect(clippy::ptr_arg, reason = "a filter")]
fn is_small(words: &Vec<u32>) -> bool {
    words.len() <= OTHERS_WORDS
}

/// A call in the file's form: class words, what is read, what is written before and after.
fn call(kind: u32, number: u32, answer: Answer, set: &[u32], read: &[u32], before: &[u32], after: &[u32]) -> Vec<u32> {
    let head = [kind, number, 0, answer.refusal, answer.first, answer.second];
    laid(head, [set, read, before, &[], &[]], [set, after, &[]], [&[], &[]])
}

/// A call's words: its first six, what it is lent, class words, area and list of missing slots after it, and the list of numbers before and
/// after it.
fn laid(head: [u32; 6], lent: [&[u32]; 5], after: [&[u32]; 3], numbers: [&[u32]; 2]) -> Vec<u32> {
    let lengths = lent.iter().chain(&numbers[..1]).map(|slice| slice.len() as u32);
    let mut words: Vec<u32> = head.into_iter().chain(lengths).collect();
    words.extend(lent.concat());
    words.extend(changes(&vec![0; numbers[0].len()], numbers[0]));
    words.extend(after.concat());
    words.extend(changes(numbers[0], numbers[1]));
    words
}

/// How many words differ, and place and new word of each.
fn changes(before: &[u32], after: &[u32]) -> Vec<u32> {
    let changed: Vec<u32> = (0..after.len()).filter(|&at| before[at] != after[at]).flat_map(|at| [at as u32, after[at]]).collect();
    [vec![changed.len() as u32 / 2], changed].concat()
}

/// A reading; of a class sheet by rows 1 to 3 alone, too.
fn reading_calls(oracle: &mut Oracle, reading: &readings::Reading) -> Vec<Vec<u32>> {
    let (before, bytes) = (readings::lent_words(reading.lent), wide(&reading.bytes));
    let (mut after, mut loosely) = (before.clone(), before.clone());
    let answer = readings::read(oracle, reading, &mut after);
    if !reading.is_class_sheet {
        return vec![call(8, 0, answer, &[], &bytes, &before, &after)];
    }
    let loose = oracle.read_unordered_sheet(&reading.bytes, &mut loosely);
    vec![call(7, 0, answer, &[], &bytes, &before, &after), call(5, 0, loose, &[], &bytes, &before, &loosely)]
}

fn order_call(oracle: &mut Oracle, order: &orders::Order) -> Vec<u32> {
    let before = vec![7; order.lent];
    let (mut set, mut after) = (order.set.clone(), before.clone());
    let answer = oracle.renumber_classes(&mut set, &mut after);
    let head = [6, 0, 0, answer.refusal, answer.first, answer.second];
    laid(head, [&order.set, &[], &before, &[], &[]], [&set, &after, &[]], [&[], &[]])
}

fn wide(bytes: &[u8]) -> Vec<u32> {
    bytes.iter().map(|&byte| byte.into()).collect()
}

/// The list and the count of a bitmap.
fn bitmap_calls(oracle: &mut Oracle, bitmap: &references::Bitmap) -> [Vec<u32>; 2] {
    let before = vec![7; bitmap.lent];
    let mut after = before.clone();
    let listed = oracle.reference_words(&bitmap.bytes, bitmap.words, &mut after);
    let counted = oracle.reference_count(&bitmap.bytes, bitmap.words);
    let bytes = wide(&bitmap.bytes);
    [call(2, bitmap.words, listed, &[], &bytes, &before, &after), call(3, bitmap.words, counted, &[], &bytes, &[], &[])]
}

fn writing_call(oracle: &mut Oracle, writing: &writings::Writing) -> Vec<u32> {
    let before = vec![7; writing.lent];
    let mut after = before.clone();
    let answer = oracle.write_class_sheet(&writing.set, &mut after);
    call(4, 0, answer, &writing.set, &[], &wide(&before), &wide(&after))
}

fn conversion_call(oracle: &mut Oracle, conversion: &forms::Conversion) -> Vec<u32> {
    let before = vec![7; conversion.lent];
    let mut after = before.clone();
    let answer = forms::convert(oracle, conversion.is_old, &conversion.bytes, &mut after);
    let kind = if conversion.is_old { 11 } else { 12 };
    call(kind, 0, answer, &[], &wide(&conversion.bytes), &wide(&before), &wide(&after))
}

/// The calls of a case, with the buckets that each reaches.
fn calls(oracle: &mut Oracle, seed: u64, number: u64) -> Vec<(Vec<usize>, Vec<u32>)> {
    calls_of(oracle, &generate::case(seed, number), |step| {
        let mut counts = Counts::default();
        counts.observe(step);
        counts.reached()
    })
}

fn calls_of<B>(oracle: &mut Oracle, case: &Case, reached: impl Fn(&Step) -> Vec<B>) -> Vec<(Vec<B>, Vec<u32>)> {
    oracle.new_case(case.rebuilds);
    let mut before = State::of(case);
    let mut found = Vec::new();
    for &call in &case.calls {
        let mut after = before.clone();
        let answer = perform(oracle, case, call, &mut after);
        let buckets = reached(&Step { case, call, before: &before, answer, after: &after });
        let stubs = &case.stubs[call.stubs()];
        let (kind, class, interface) = match call {
            Call::Link { class, .. } => (0, class, 0),
            Call::Ask { class, interface, .. } => (1, class, interface),
            Call::Missing { class } => (14, class, 0),
            Call::Fill => (15, 0, 0),
        };
        let lent: [&[u32]; 5] = [&before.set, &case.abi, &before.area, stubs, &before.missing];
        if lent.iter().all(|slice| slice.len() <= MOST_WORDS) {
            let head = [kind, class, interface, answer.refusal, answer.first, answer.second];
            let left: [&[u32]; 3] = [&after.set, &after.area, &after.missing];
            found.push((buckets, laid(head, lent, left, [&before.numbers, &after.numbers])));
        }
        before = after;
    }
    found
}
