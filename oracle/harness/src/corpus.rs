//! The corpus: cases with the oracle's answers, as little-endian words that a program
//! without any Rust can replay. README.md sets the format out.

pub mod answers;
mod format;
pub mod widened;

use std::collections::{BTreeMap, BTreeSet};

use crate::buckets::Counts;
use crate::case::{Call, Case};
use crate::compare::{State, Step, perform};
use crate::generate;
use crate::oracle::Oracle;
use crate::packages::{self, PackageCounts};
use crate::random::Random;
use crate::readings;
use crate::side::{Answer, Linker};
use crate::telling;

use format::{Reader, Writer};

/// "LGTC", lowest byte first.
const MAGIC: u32 = u32::from_le_bytes(*b"LGTC");
const VERSION: u32 = 4;
/// How many of a seed's cases are looked at.
const LOOKED_AT: u64 = 60_000;
/// How many readings and descriptors are stored.
const READINGS: u64 = 60;
const DESCRIPTORS: u64 = 400;
/// The bytes of a stored reading, at most: a block more than any sheet has.
const READING_BYTES: usize = 93 * 512;
/// The words of a small case, at most.
const SMALL: usize = 1_000;

/// What a corpus covers.
pub struct Summary {
    pub cases: usize,
    pub calls: usize,
    pub reached: usize,
    pub buckets: usize,
}

/// The corpus of `seed`: for each bucket the smallest case that reaches it, then small cases
/// up to `count`.
pub fn make(seed: u64, count: usize) -> (Vec<u32>, Summary) {
    let mut oracle = Oracle::default();
    let chosen: Vec<_> = choose(&mut oracle, seed, count).into_iter().map(|number| (generate::case(seed, number), None)).collect();
    build(&mut oracle, seed, &chosen, [READINGS, DESCRIPTORS], false, &format!("oracle/corpus {seed} {count}"))
}

/// Cases of kind 3, which the Rust does not judge: for each bucket the smallest that reaches it, then others up to `count`.
pub fn packages(seed: u64, count: usize) -> (Vec<u32>, Summary) {
    let mut oracle = Oracle::default();
    let chosen = choose_packages(&mut oracle, seed, count);
    let mut counts = PackageCounts::default();
    for case in &chosen {
        observe_packages(&mut oracle, case, &mut counts);
    }
    let (reached, buckets) = (counts.reached().len(), PackageCounts::BUCKETS);
    let chosen: Vec<_> = chosen.into_iter().map(|case| (case, None)).collect();
    let (words, summary) = build(&mut oracle, seed, &chosen, [0, 0], false, &format!("oracle/corpus packages {seed} {count}"));
    (words, Summary { reached, buckets, ..summary })
}

/// Makes a case's calls and what is claimed of them beside kind 0, and counts what they reach; answers the words that they take.
fn observe_packages(oracle: &mut Oracle, case: &Case, counts: &mut PackageCounts) -> usize {
    oracle.new_case(case.rebuilds);
    let mut state = State::of(case);
    let mut answers = Vec::new();
    for &call in &case.calls {
        let before = state.clone();
        let answer = perform(oracle, case, call, &mut state);
        counts.observe(&Step { case, call, before: &before, answer, after: &state });
        answers.push(answer);
    }
    packages::as_kind_0(oracle, case, &answers, &state.area, counts).expect("a run has shown it");
    let mut writer = Writer::default();
    write_case(&mut writer, oracle, case, &mut Counts::default(), None);
    writer.len()
}

fn choose_packages(oracle: &mut Oracle, seed: u64, count: usize) -> Vec<Case> {
    let mut smallest: BTreeMap<&'static str, (usize, u64)> = BTreeMap::new();
    for number in 0..LOOKED_AT / 4 {
        let mut counts = PackageCounts::default();
        let size = observe_packages(oracle, &generate::packages(seed, number), &mut counts);
        for bucket in counts.reached() {
            let best = smallest.entry(bucket).or_insert((size, number));
            *best = (*best).min((size, number));
        }
    }
    let mut chosen: BTreeSet<u64> = smallest.into_values().map(|(_, number)| number).collect();
    chosen.extend((0..count as u64).take(count.saturating_sub(chosen.len())));
    chosen.into_iter().map(|number| generate::packages(seed, number)).collect()
}

/// The telling rows with the Rust's answers; a row that says otherwise is an error.
pub fn telling() -> Result<(Vec<u32>, Summary), String> {
    let mut oracle = Oracle::default();
    let rows = telling::rows();
    for row in &rows {
        oracle.new_case(row.case.rebuilds);
        row.check(&mut oracle)?;
    }
    let chosen: Vec<_> = rows.into_iter().map(|row| (row.case, None)).collect();
    Ok(build(&mut oracle, 0, &chosen, [0, 0], false, "oracle/corpus telling"))
}

/// A few small cases of `seed`, and one thing each, in all but the first, that the Rust did not answer.
pub fn spoiled(seed: u64) -> (Vec<u32>, Summary) {
    let mut oracle = Oracle::default();
    let small: Vec<_> = (0..LOOKED_AT).filter(|&number| is_small(&mut oracle, &generate::case(seed, number))).take(6).collect();
    let small = small.into_iter().map(|number| generate::case(seed, number));
    let spoils = [None, Some(Spoil::Answer), Some(Spoil::Set), Some(Spoil::Numbers), Some(Spoil::Area), Some(Spoil::Missing)];
    let chosen: Vec<_> = small.zip(spoils).collect();
    build(&mut oracle, seed, &chosen, [2, 2], true, &format!("oracle/corpus spoiled {seed}"))
}

/// What is stored otherwise than it was answered: of the list of numbers at the last call that changes it, of all else at the last link of a
/// case that is accepted and changes the list of missing slots; it changes class words and area, too.
#[derive(Clone, Copy)]
enum Spoil {
    Answer,
    Set,
    Numbers,
    Area,
    Missing,
}

/// Whether a case is small, and a link of it that is not its first call can be spoiled.
fn is_small(oracle: &mut Oracle, case: &Case) -> bool {
    let mut writer = Writer::default();
    write_case(&mut writer, oracle, case, &mut Counts::default(), None);
    let spoils = [Spoil::Missing, Spoil::Numbers].map(|spoil| spoiled_call(oracle, case, spoil));
    writer.len() < SMALL && spoils[0].is_some_and(|call| call > 1) && spoils[1].is_some()
}

/// The number of the call at which a case is spoiled.
fn spoiled_call(oracle: &mut Oracle, case: &Case, spoil: Spoil) -> Option<usize> {
    oracle.new_case(case.rebuilds);
    let mut state = State::of(case);
    let mut changes = |call: Call| {
        let before = state.clone();
        perform(oracle, case, call, &mut state);
        if matches!(spoil, Spoil::Numbers) { state.numbers != before.numbers } else { state.missing != before.missing }
    };
    let changed: Vec<bool> = case.calls.iter().map(|&call| changes(call)).collect();
    changed.iter().rposition(|changes| *changes)
}

fn build(
    oracle: &mut Oracle,
    seed: u64,
    chosen: &[(Case, Option<Spoil>)],
    [readings, descriptors]: [u64; 2],
    spoil: bool,
    made: &str,
) -> (Vec<u32>, Summary) {
    let mut writer = Writer::default();
    let mut longest = Longest::default();
    let mut counts = Counts::default();
    for (case, spoil) in chosen {
        longest.case(case);
        write_case(&mut writer, oracle, case, &mut counts, *spoil);
    }
    let mut random = Random::new(seed);
    let drawn = (0..).map(|number| readings::reading(&mut random, &generate::case(seed, number)));
    let stored: Vec<_> = drawn.filter(|reading| reading.bytes.len() <= READING_BYTES).take(readings as usize).collect();
    for (number, reading) in (1..).zip(&stored) {
        longest.reading(reading);
        write_reading(&mut writer, oracle, reading, spoil && number == readings);
    }
    for number in 0..descriptors {
        write_descriptor(&mut writer, oracle, &mut random, spoil && number + 1 == descriptors);
    }
    let reached = counts.reached().len();
    let buckets = counts.summary().0.lines().count() - 1;
    let mut header = Writer::default();
    header.words(&[MAGIC, VERSION, seed as u32, (seed >> 32) as u32]);
    header.words(&[chosen.len() as u32, readings as u32, descriptors as u32]);
    header.words(&longest.0);
    header.bytes(made.as_bytes());
    header.append(writer);
    (header.finish(), Summary { cases: chosen.len(), calls: counts.calls as usize, reached, buckets })
}

/// The longest of each kind, so that a replaying program knows what to set aside: class
/// words, ABI words, area, stub list, stub lists of a case, bytes of a reading, words lent to
/// a reading, list of missing slots, list of numbers.
#[derive(Default)]
struct Longest([u32; 9]);

impl Longest {
    fn raise(&mut self, position: usize, length: usize) {
        self.0[position] = self.0[position].max(length as u32);
    }

    fn case(&mut self, case: &Case) {
        self.raise(0, case.set.len());
        self.raise(1, case.abi.len());
        self.raise(2, case.area.len());
        case.stubs.iter().for_each(|stubs| self.raise(3, stubs.len()));
        self.raise(4, case.stubs.len());
        self.raise(7, case.missing.len());
        self.raise(8, case.numbers.len());
    }

    fn reading(&mut self, reading: &readings::Reading) {
        self.raise(5, reading.bytes.len());
        self.raise(6, reading.lent);
    }
}

/// The numbers of the cases to store.
fn choose(oracle: &mut Oracle, seed: u64, count: usize) -> Vec<u64> {
    let mut smallest: Vec<Option<(usize, u64)>> = Vec::new();
    let mut sizes = Vec::new();
    for number in 0..LOOKED_AT {
        let case = generate::case(seed, number);
        let mut writer = Writer::default();
        let mut counts = Counts::default();
        write_case(&mut writer, oracle, &case, &mut counts, None);
        let size = writer.len();
        sizes.push((size, number));
        for bucket in counts.reached() {
            smallest.resize(smallest.len().max(bucket + 1), None);
            let best = smallest[bucket].get_or_insert((size, number));
            *best = (*best).min((size, number));
        }
    }
    let mut chosen: Vec<u64> = smallest.into_iter().flatten().map(|(_, number)| number).collect();
    // Of the rest, those of middling size: the smallest have nothing in them.
    sizes.sort_unstable();
    chosen.sort_unstable();
    chosen.dedup();
    let rest = sizes.into_iter().map(|(_, number)| number).skip(LOOKED_AT as usize / 4).step_by(7);
    let more: Vec<u64> = rest.filter(|number| chosen.binary_search(number).is_err()).take(count.saturating_sub(chosen.len())).collect();
    chosen.extend(more);
    chosen.sort_unstable();
    chosen
}

fn write_case(writer: &mut Writer, oracle: &mut Oracle, case: &Case, counts: &mut Counts, spoil: Option<Spoil>) {
    let spoiled = spoil.and_then(|spoil| Some((spoiled_call(oracle, case, spoil)?, spoil)));
    for words in [&case.set, &case.abi, &case.numbers, &case.area, &case.missing] {
        writer.list(words);
    }
    writer.words(&[case.stubs.len() as u32]);
    case.stubs.iter().for_each(|stubs| writer.list(stubs));
    writer.words(&[case.calls.len() as u32]);
    oracle.new_case(case.rebuilds);
    let mut state = State::of(case);
    for (number, &call) in case.calls.iter().enumerate() {
        let before = state.clone();
        let answer = perform(oracle, case, call, &mut state);
        let (mut told, mut after) = (answer, state.clone());
        match spoiled {
            Some((spoiled, Spoil::Answer)) if spoiled == number => told.second += 1,
            Some((spoiled, Spoil::Set)) if spoiled == number => spoil_last(&before.set, &mut after.set),
            Some((spoiled, Spoil::Numbers)) if spoiled == number => spoil_last(&before.numbers, &mut after.numbers),
            Some((spoiled, Spoil::Area)) if spoiled == number => spoil_last(&before.area, &mut after.area),
            Some((spoiled, Spoil::Missing)) if spoiled == number => spoil_last(&before.missing, &mut after.missing),
            _ => (),
        }
        counts.observe(&Step { case, call, before: &before, answer, after: &state });
        writer.words(&match call {
            Call::Link { class, stubs } => [0, class, 0, stubs as u32],
            Call::Ask { class, interface, stubs } => [1, class, interface, stubs as u32],
            Call::Missing { class } => [2, class, 0, 0],
            Call::Fill => [3, 0, 0, 0],
        });
        writer.words(&[told.refusal, told.first, told.second]);
        writer.changes(&before.set, &after.set);
        writer.changes(&before.numbers, &after.numbers);
        writer.changes(&before.area, &after.area);
        writer.changes(&before.missing, &after.missing);
    }
}

/// Adds 1 to the last word that a call changed.
fn spoil_last(before: &[u32], after: &mut [u32]) {
    if let Some(at) = (0..before.len()).rev().find(|&at| before[at] != after[at]) {
        after[at] = after[at].wrapping_add(1);
    }
}

fn write_reading(writer: &mut Writer, oracle: &mut Oracle, reading: &readings::Reading, spoil: bool) {
    let mut words = readings::lent_words(reading.lent);
    let answer = readings::read(oracle, reading, &mut words);
    writer.words(&[u32::from(!reading.is_class_sheet), reading.lent as u32]);
    writer.bytes(&reading.bytes);
    writer.words(&[answer.refusal, answer.first + u32::from(spoil)]);
}

fn write_descriptor(writer: &mut Writer, oracle: &mut Oracle, random: &mut Random, spoil: bool) {
    let (descriptor, flags) = readings::descriptor(random);
    let answer = oracle.argument_words(&descriptor, flags);
    writer.words(&[flags]);
    writer.bytes(&descriptor);
    writer.words(&[answer.refusal, answer.first + u32::from(spoil)]);
}

/// Replays a corpus on a side; answers the number of calls, or what differs first.
pub fn replay(corpus: &[u32], side: &mut dyn Linker) -> Result<usize, String> {
    if corpus.first() == Some(&answers::MAGIC) {
        return answers::replay(corpus, side);
    }
    let mut reader = Reader::new(corpus)?;
    let [magic, version, _, _, cases, readings, descriptors] = reader.words()?;
    let _longest: [u32; 9] = reader.words()?;
    if (magic, version) != (MAGIC, VERSION) {
        return Err("no corpus of this version".to_owned());
    }
    reader.bytes()?;
    let mut calls = 0;
    for number in 0..cases {
        calls += replay_case(&mut reader, side).map_err(|message| format!("case {number}: {message}"))?;
    }
    for number in 0..readings {
        replay_reading(&mut reader, side).map_err(|message| format!("reading {number}: {message}"))?;
    }
    for number in 0..descriptors {
        replay_descriptor(&mut reader, side).map_err(|message| format!("descriptor {number}: {message}"))?;
    }
    reader.end()?;
    Ok(calls + readings as usize + descriptors as usize)
}

fn replay_case(reader: &mut Reader, side: &mut dyn Linker) -> Result<usize, String> {
    let [set, abi, numbers, area, missing] = [reader.list()?, reader.list()?, reader.list()?, reader.list()?, reader.list()?];
    let [stub_lists] = reader.words()?;
    let stubs = (0..stub_lists).map(|_| reader.list()).collect::<Result<Vec<_>, _>>()?;
    let [calls] = reader.words()?;
    let case = Case { set, abi, numbers, area, missing, stubs, ..Case::default() };
    let mut expected = State::of(&case);
    let mut found = expected.clone();
    for number in 0..calls {
        let [kind, class, interface, stubs, refusal, first, second] = reader.words()?;
        for words in [&mut expected.set, &mut expected.numbers, &mut expected.area, &mut expected.missing] {
            reader.change(words)?;
        }
        let stubs = stubs as usize;
        let call = match kind {
            0 => Call::Link { class, stubs },
            1 => Call::Ask { class, interface, stubs },
            2 => Call::Missing { class },
            _ => Call::Fill,
        };
        let answer = perform(side, &case, call, &mut found);
        let stored = Answer { refusal, first, second };
        if answer != stored || expected != found {
            return Err(format!("call {number} ({call}): stored {stored:?}, found {answer:?}, memory equal: {}", expected == found));
        }
    }
    Ok(calls as usize)
}

fn replay_reading(reader: &mut Reader, side: &mut dyn Linker) -> Result<(), String> {
    let [is_abi_sheet, lent] = reader.words()?;
    let bytes = reader.bytes()?;
    let [refusal, first] = reader.words()?;
    let reading = readings::Reading { is_class_sheet: is_abi_sheet == 0, bytes, lent: lent as usize, damage: "" };
    let mut expected = readings::lent_words(reading.lent);
    let mut found = expected.clone();
    let answer = readings::read(side, &reading, &mut found);
    if refusal == 0 {
        let words = reading.bytes.chunks_exact(4).enumerate().filter(|(position, _)| position % 128 != 127);
        let words = words.map(|(_, bytes)| u32::from_le_bytes(bytes.try_into().unwrap()));
        expected.iter_mut().zip(words).for_each(|(word, read)| *word = read);
    }
    let stored = Answer { refusal, first, second: 0 };
    if answer == stored && expected == found { Ok(()) } else { Err(format!("stored {stored:?}, found {answer:?}")) }
}

fn replay_descriptor(reader: &mut Reader, side: &mut dyn Linker) -> Result<(), String> {
    let [flags] = reader.words()?;
    let descriptor = reader.bytes()?;
    let [refusal, first] = reader.words()?;
    let answer = side.argument_words(&descriptor, flags);
    let stored = Answer { refusal, first, second: 0 };
    if answer == stored { Ok(()) } else { Err(format!("stored {stored:?}, found {answer:?}")) }
}
