//! Stored calls of the functions that a corpus's cases, readings and descriptors do not have, each with the oracle's answer and what it
//! leaves; `crates/answers` replays them. README.md sets the format out. A function more is a kind, an arm of `perform` and a sort of call.

use std::collections::{BTreeMap, BTreeSet};

use super::format::{Reader, Writer};
use crate::case::Case;
use crate::class_files;
use crate::forms;
use crate::generate;
use crate::names;
use crate::oracle::Oracle;
use crate::orders;
use crate::random::Random;
use crate::readings::{self, ReadingCounts};
use crate::references;
use crate::side::{Answer, FileAnswer, Linker};
use crate::writings;

/// "LGTA", lowest byte first.
pub(super) const MAGIC: u32 = u32::from_le_bytes(*b"LGTA");
const VERSION: u32 = 2;
/// How many of a seed's cases are looked at.
const LOOKED_AT: u64 = 12_000;
/// The most bytes and words that a call is lent.
const MOST_BYTES: usize = 49_152;
const MOST_WORDS: usize = 12_288;
/// What each byte and word that a call fills holds before it.
const UNWRITTEN: u8 = 7;
/// How the names of the buckets begin that the calls cover, but for those that only a link reaches.
const COVERED: [&str; 17] = [
    "class set ",
    "writing: ",
    "names: ",
    "class sheet read loosely",
    "class sheet refused loosely",
    "damage: ",
    "classes renumbered",
    "classes not renumbered",
    "order: ",
    "reference words ",
    "bitmap: ",
    "class sheet widened",
    "class sheet not widened",
    "class sheet narrowed",
    "class sheet not narrowed",
    "converting: ",
    "file: ",
];
const LINKED: [&str; 3] = ["order: linked alike", "order: a class refused alike", "order: a table in another order"];

/// The function that is called, by its number in the file.
#[derive(Clone, Copy, Debug, PartialEq)]
enum Kind {
    Write,
    Compare,
    Read,
    Renumber,
    List,
    Count,
    Widen,
    Narrow,
    ReadFile,
    FileHead,
}

const KINDS: [Kind; 10] = [
    Kind::Write,
    Kind::Compare,
    Kind::Read,
    Kind::Renumber,
    Kind::List,
    Kind::Count,
    Kind::Widen,
    Kind::Narrow,
    Kind::ReadFile,
    Kind::FileHead,
];

/// What a call is lent to write; of a comparison the second name.
#[derive(Clone, Default, PartialEq)]
struct Memory {
    bytes: Vec<u8>,
    lists: [Vec<u32>; 3],
}

impl Memory {
    fn bytes(bytes: Vec<u8>) -> Self {
        Self { bytes, ..Self::default() }
    }

    fn list(list: Vec<u32>) -> Self {
        Self { lists: [list, Vec::new(), Vec::new()], ..Self::default() }
    }
}

/// An answer in six words, those after its two 0.
fn six(Answer { refusal, first, second }: Answer) -> FileAnswer {
    FileAnswer { refusal, words: [first, second, 0, 0, 0, 0] }
}

/// A call: a number that it takes, what it reads, and the memory that it is lent.
#[derive(Clone)]
struct Call {
    kind: Kind,
    number: u32,
    bytes: Vec<u8>,
    words: Vec<u32>,
    memory: Memory,
}

impl Call {
    fn new(kind: Kind, memory: Memory) -> Self {
        Self { kind, number: 0, bytes: Vec::new(), words: Vec::new(), memory }
    }

    /// Makes the call on one side; answers with the memory after it.
    fn perform(&self, side: &mut dyn Linker) -> (FileAnswer, Memory) {
        let mut memory = self.memory.clone();
        let Memory { bytes, lists: [first, second, third] } = &mut memory;
        let answer = match self.kind {
            Kind::Write => six(side.write_class_sheet(&self.words, bytes)),
            Kind::Compare => six(side.compare_names(&self.bytes, bytes)),
            Kind::Read => six(side.read_unordered_sheet(&self.bytes, first)),
            Kind::Renumber => six(side.renumber_classes(first, second)),
            Kind::List => six(side.reference_words(&self.bytes, self.number, first)),
            Kind::Count => six(side.reference_count(&self.bytes, self.number)),
            Kind::Widen => six(side.widen_class_sheet(&self.bytes, bytes)),
            Kind::Narrow => six(side.narrow_class_sheet(&self.bytes, bytes)),
            Kind::ReadFile => side.read_class_file(&self.bytes, &self.words, first, second, third),
            Kind::FileHead => side.class_file_head(&self.bytes),
        };
        (answer, memory)
    }
}

/// A call with its answer, in as many words as a class file's, and the memory after it.
#[derive(Clone)]
struct Stored {
    call: Call,
    answer: FileAnswer,
    after: Memory,
}

impl Stored {
    fn new(oracle: &mut Oracle, call: Call) -> Self {
        let (answer, after) = call.perform(oracle);
        Self { call, answer, after }
    }

    /// The answer of a function that gives no more than two words.
    fn two(&self) -> Answer {
        let FileAnswer { refusal, words: [first, second, ..] } = self.answer;
        Answer { refusal, first, second }
    }

    /// The most words that are read, or lent for a list.
    fn most_words(&self) -> usize {
        self.after.lists.iter().map(Vec::len).fold(self.call.words.len(), usize::max)
    }

    fn fits(&self) -> bool {
        self.after.bytes.len() <= MOST_BYTES && self.most_words() <= MOST_WORDS
    }

    fn write(&self, writer: &mut Writer) {
        let Self { call, answer, after } = self;
        let Call { kind, number, bytes, words, memory } = call;
        writer.words(&[*kind as u32, *number, answer.refusal]);
        writer.words(&answer.words);
        writer.plain_bytes(bytes);
        writer.plain_words(words);
        writer.byte_slice(&memory.bytes, &after.bytes, UNWRITTEN);
        for (before, after) in memory.lists.iter().zip(&after.lists) {
            writer.word_slice(before, after, UNWRITTEN.into());
        }
    }

    fn read(reader: &mut Reader) -> Result<Self, String> {
        let [kind, number, refusal] = reader.words()?;
        let answer = FileAnswer { refusal, words: reader.words()? };
        let kind = *KINDS.get(kind as usize).ok_or("no such kind of call")?;
        let (bytes, words) = (reader.plain_bytes()?, reader.plain_words()?);
        let [before, after] = reader.byte_slice(UNWRITTEN)?;
        let (mut memory, mut after) = (Memory::bytes(before), Memory::bytes(after));
        for list in 0..3 {
            [memory.lists[list], after.lists[list]] = reader.word_slice(UNWRITTEN.into())?;
        }
        Ok(Self { call: Call { kind, number, bytes, words, memory }, answer, after })
    }

    fn len(&self) -> usize {
        let mut writer = Writer::default();
        self.write(&mut writer);
        writer.len()
    }
}

/// What a sort of call gives by chance: one call or two of the same, and what they are about.
type Made = Option<(Vec<Stored>, ReadingCounts)>;

/// The sorts of call.
const SORTS: [fn(&mut Oracle, &mut Random, &Case) -> Made; 8] =
    [writing, comparison, reading, order, bitmap, widening, narrowing, class_file];

fn unwritten(words: usize) -> Vec<u32> {
    vec![UNWRITTEN.into(); words]
}

fn writing(oracle: &mut Oracle, random: &mut Random, case: &Case) -> Made {
    let (writing, mut counts) = (writings::random(random, case), ReadingCounts::default());
    let memory = Memory::bytes(vec![UNWRITTEN; writing.lent]);
    let stored = Stored::new(oracle, Call { words: writing.set.clone(), ..Call::new(Kind::Write, memory) });
    writings::observe(&writing, stored.two(), &mut counts);
    Some((vec![stored], counts))
}

fn comparison(oracle: &mut Oracle, random: &mut Random, _: &Case) -> Made {
    let (names, mut counts) = (names::random(random), ReadingCounts::default());
    let memory = Memory::bytes(names.b.clone());
    let stored = Stored::new(oracle, Call { bytes: names.a.clone(), ..Call::new(Kind::Compare, memory) });
    names::observe(&names, stored.two(), &mut counts);
    Some((vec![stored], counts))
}

/// A class sheet; ABI sheets are read by rows 1 to 5 alone.
fn reading(oracle: &mut Oracle, random: &mut Random, case: &Case) -> Made {
    let (reading, mut counts) = (readings::reading(random, case), ReadingCounts::default());
    if !reading.is_class_sheet {
        return None;
    }
    let strictly = readings::read(oracle, &reading, &mut unwritten(reading.lent));
    let memory = Memory::list(unwritten(reading.lent));
    let stored = Stored::new(oracle, Call { bytes: reading.bytes.clone(), ..Call::new(Kind::Read, memory) });
    counts.hit(reading.damage);
    readings::observe_loosely(strictly, stored.two(), &mut counts);
    Some((vec![stored], counts))
}

fn order(oracle: &mut Oracle, random: &mut Random, case: &Case) -> Made {
    let (order, mut counts) = (orders::random(random, case), ReadingCounts::default());
    let memory = Memory { lists: [order.set.clone(), unwritten(order.lent), Vec::new()], ..Memory::default() };
    let stored = Stored::new(oracle, Call::new(Kind::Renumber, memory));
    orders::observe(&order, stored.two(), &stored.after.lists[1][..stored.two().first as usize], &mut counts);
    Some((vec![stored], counts))
}

/// The list, and the count without it.
fn bitmap(oracle: &mut Oracle, random: &mut Random, _: &Case) -> Made {
    let (bitmap, mut counts) = (references::random(random), ReadingCounts::default());
    let memory = Memory::list(unwritten(bitmap.lent));
    let list = Call { number: bitmap.words, bytes: bitmap.bytes.clone(), ..Call::new(Kind::List, memory) };
    let count = Call { kind: Kind::Count, memory: Memory::default(), ..list.clone() };
    let (listed, counted) = (Stored::new(oracle, list), Stored::new(oracle, count));
    references::observe(&bitmap, listed.two(), &mut counts);
    Some((vec![listed, counted], counts))
}

fn widening(oracle: &mut Oracle, random: &mut Random, case: &Case) -> Made {
    conversion(oracle, &forms::random(random, case)).filter(|(stored, _)| stored[0].call.kind == Kind::Widen)
}

fn narrowing(oracle: &mut Oracle, random: &mut Random, case: &Case) -> Made {
    conversion(oracle, &forms::random(random, case)).filter(|(stored, _)| stored[0].call.kind == Kind::Narrow)
}

/// A class sheet made one of the other form.
fn conversion(oracle: &mut Oracle, conversion: &forms::Conversion) -> Made {
    let (kind, mut counts) = (if conversion.is_old { Kind::Widen } else { Kind::Narrow }, ReadingCounts::default());
    let memory = Memory::bytes(vec![UNWRITTEN; conversion.lent]);
    let stored = Stored::new(oracle, Call { bytes: conversion.bytes.clone(), ..Call::new(kind, memory) });
    forms::observe(conversion, stored.two(), &stored.after.bytes[..512 * stored.two().first as usize], &mut counts);
    Some((vec![stored], counts))
}

/// A class file, with its lists and without.
fn class_file(oracle: &mut Oracle, random: &mut Random, _: &Case) -> Made {
    let (file, mut counts) = (class_files::random(random), ReadingCounts::default());
    let memory = Memory { lists: [file.fields, file.methods, file.text].map(unwritten), ..Memory::default() };
    let read = Call { bytes: file.bytes.clone(), words: file.targets.clone(), ..Call::new(Kind::ReadFile, memory) };
    let head = Call { bytes: file.bytes.clone(), ..Call::new(Kind::FileHead, Memory::default()) };
    let (read, headed) = (Stored::new(oracle, read), Stored::new(oracle, head));
    class_files::observe(&file, read.answer, &mut counts);
    Some((vec![read, headed], counts))
}

/// What a sort gives with a case of the seed, if there is room for it.
fn made(oracle: &mut Oracle, sort: usize, seed: u64, number: u64) -> Made {
    let made = SORTS[sort](oracle, &mut Random::for_case(!seed, number), &generate::case(seed, number))?;
    made.0.iter().all(Stored::fits).then_some(made)
}

/// What a file of stored answers holds.
pub struct Summary {
    pub calls: usize,
    /// The buckets that no call covers.
    pub missed: Vec<&'static str>,
}

/// The stored answers of `seed`: of each sort of call the smallest for each bucket, and some `count` others, as many accepted as refused by
/// each row.
pub fn make(seed: u64, count: usize) -> (Vec<u32>, Summary) {
    let mut oracle = Oracle::default();
    let mut counts = ReadingCounts::default();
    let mut calls = Vec::new();
    for sort in 0..SORTS.len() {
        for number in choose(&mut oracle, sort, seed, count) {
            let (stored, more) = made(&mut oracle, sort, seed, number).expect("it was made before");
            calls.extend(stored);
            counts.add(&more);
        }
    }
    let is_covered = |name: &str| COVERED.iter().any(|covered| name.starts_with(covered)) && !LINKED.contains(&name);
    let missed = counts.buckets().filter(|&(name, reached)| is_covered(name) && !reached).map(|(name, _)| name).collect();
    (write(&calls, &format!("oracle/corpus answers {seed} {count}")), Summary { calls: calls.len(), missed })
}

/// The numbers of the cases of which a sort's calls are stored.
fn choose(oracle: &mut Oracle, sort: usize, seed: u64, count: usize) -> BTreeSet<u64> {
    let mut smallest: BTreeMap<&str, (usize, u64)> = BTreeMap::new();
    let mut rows: BTreeMap<u32, Vec<(usize, u64)>> = BTreeMap::new();
    for number in 0..LOOKED_AT {
        let Some((calls, counts)) = made(oracle, sort, seed, number) else { continue };
        let found = (calls.iter().map(Stored::len).sum(), number);
        rows.entry(calls[0].answer.refusal).or_default().push(found);
        for (bucket, _) in counts.buckets().filter(|&(_, reached)| reached) {
            let best = smallest.entry(bucket).or_insert(found);
            *best = (*best).min(found);
        }
    }
    let each = count / rows.len();
    let others = rows.into_values().flat_map(|calls| middling(calls, each));
    smallest.into_values().chain(others).map(|(_, number)| number).collect()
}

/// So many calls of middling size: the smallest have nothing in them.
fn middling(mut calls: Vec<(usize, u64)>, count: usize) -> impl Iterator<Item = (usize, u64)> {
    calls.sort_unstable();
    let (first, half) = (calls.len() / 4, calls.len() / 2);
    calls.into_iter().skip(first).step_by((half / count.max(1)).max(1)).take(count)
}

fn write(calls: &[Stored], how: &str) -> Vec<u32> {
    let longest_bytes = calls.iter().map(|stored| stored.after.bytes.len()).max();
    let longest_words = calls.iter().map(Stored::most_words).max();
    let mut writer = Writer::default();
    writer.words(&[MAGIC, VERSION, calls.len() as u32, longest_bytes.unwrap_or(0) as u32, longest_words.unwrap_or(0) as u32]);
    writer.plain_bytes(how.as_bytes());
    calls.iter().for_each(|stored| stored.write(&mut writer));
    writer.into_words()
}

/// Of each function a small call that is accepted; then the same with one thing each that was not answered: an answer word, and of each
/// memory lent the last thing that the call wrote, and the last of all, which it did not.
pub fn spoiled(seed: u64) -> (Vec<u32>, Summary) {
    let mut oracle = Oracle::default();
    let numbers = (0..LOOKED_AT / 20).flat_map(|number| (0..SORTS.len()).map(move |sort| (sort, number)));
    let made: Vec<Stored> =
        numbers.filter_map(|(sort, number)| made(&mut oracle, sort, seed, number)).flat_map(|(calls, _)| calls).collect();
    let calls: Vec<Stored> = KINDS.into_iter().flat_map(|kind| with_spoils(small(&made, kind))).collect();
    (write(&calls, &format!("oracle/corpus answers-spoiled {seed}")), Summary { calls: calls.len(), missed: Vec::new() })
}

/// The smallest call of a function that is accepted, and of each memory that it writes leaves the last.
fn small(made: &[Stored], kind: Kind) -> &Stored {
    let is_told = |stored: &&Stored| {
        let (before, after) = (&stored.call.memory, &stored.after);
        let Answer { refusal, first, second } = stored.two();
        let is_written = match kind {
            Kind::Compare => second > 0,
            Kind::ReadFile => before.lists.iter().all(|list| !list.is_empty()),
            _ => is_front_written(&before.bytes, &after.bytes),
        };
        let mut lists = before.lists.iter().zip(&after.lists);
        refusal == 0 && first > 0 && is_written && lists.all(|(before, after)| is_front_written(before, after))
    };
    let calls = made.iter().filter(|stored| stored.call.kind == kind).filter(is_told);
    calls.min_by_key(|stored| stored.len()).expect("there is a small call")
}

/// Nothing was lent, or something was written and the last left.
fn is_front_written<T: PartialEq>(before: &[T], after: &[T]) -> bool {
    before.is_empty() || before != after && before.last() == after.last()
}

/// A call, and the same spoiled in each way.
fn with_spoils(told: &Stored) -> Vec<Stored> {
    let mut calls = vec![told.clone()];
    let mut spoil = |change: &dyn Fn(&mut Stored)| {
        let mut spoiled = told.clone();
        change(&mut spoiled);
        calls.push(spoiled);
    };
    spoil(&|stored| stored.answer.refusal += 1);
    for word in 0..6 {
        spoil(&|stored| stored.answer.words[word] += 1);
    }
    let (before, after) = (&told.call.memory, &told.after);
    for at in spoiled_places(&before.bytes, &after.bytes) {
        spoil(&|stored| stored.after.bytes[at] ^= 1);
    }
    for list in 0..3 {
        for at in spoiled_places(&before.lists[list], &after.lists[list]) {
            spoil(&|stored| stored.after.lists[list][at] ^= 1);
        }
    }
    calls
}

/// The last place that a call changed, and the last of all.
fn spoiled_places<T: PartialEq>(before: &[T], after: &[T]) -> BTreeSet<usize> {
    let changed = (0..before.len()).rev().find(|&at| before[at] != after[at]);
    changed.into_iter().chain(before.len().checked_sub(1)).collect()
}

/// Replays stored answers on a side; answers the number of calls, or what differs first.
pub(super) fn replay(words: &[u32], side: &mut dyn Linker) -> Result<usize, String> {
    let mut reader = Reader::unsummed(words);
    let [magic, version, calls, _, _] = reader.words()?;
    if (magic, version) != (MAGIC, VERSION) {
        return Err("no stored answers of this version".to_owned());
    }
    reader.plain_bytes()?;
    for number in 0..calls {
        let Stored { call, answer, after } = Stored::read(&mut reader)?;
        let (found, memory) = call.perform(side);
        if found != answer || memory != after {
            let (kind, equal) = (call.kind, memory == after);
            return Err(format!("call {number} ({kind:?}): stored {answer:?}, found {found:?}, memory equal: {equal}"));
        }
    }
    reader.end()?;
    Ok(calls as usize)
}
