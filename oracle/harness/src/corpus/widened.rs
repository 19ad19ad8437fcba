//! Stored calls on class words of 17-word records, as the Rust answered them before there were static words, made on words of today's
//! width: any word is inserted after each record. Answers and area must be the stored ones, and the class words the stored result with the
//! same words inserted, but for the linked class's own.

use crate::case::{Call, Case};
use crate::compare::{State, perform};
use crate::model;
use crate::oracle::numbers;
use crate::random::Random;
use crate::side::{Answer, Linker};

use super::Reader;

/// The words of a class record without its static words, and the first words of the record that are looked at here.
const OLD_WORDS: usize = 17;
const KIND: usize = 4;
const FIRST_FIELD: usize = 7;

/// Both corpora as they stood before the eighteenth word: `oracle/corpus 1 300`, and that of the telling rows.
pub fn stored() -> [Vec<u32>; 2] {
    let corpora: [&[u8]; 2] = [include_bytes!("../../data/old-rust.bin"), include_bytes!("../../data/old-telling.bin")];
    corpora.map(|bytes| bytes.chunks_exact(4).map(|word| u32::from_le_bytes(word.try_into().unwrap())).collect())
}

/// How many calls were made, and how many accepted links left another static word than they were lent.
#[derive(Clone, Copy, Debug, Default, PartialEq, Eq)]
pub struct Made {
    pub calls: usize,
    pub counted: usize,
}

/// Makes a stored corpus's calls on a side, with the words that `seed` inserts; what differs first.
pub fn replay(corpus: &[u32], seed: u64, side: &mut dyn Linker) -> Result<Made, String> {
    let mut reader = Reader::new(corpus)?;
    let [.., cases, _, _] = reader.words::<7>()?;
    let _longest: [u32; 7] = reader.words()?;
    reader.bytes()?;
    let mut made = Made::default();
    for number in 0..cases {
        let mut random = Random::for_case(seed, number.into());
        replay_case(&mut reader, &mut random, side, &mut made).map_err(|message| format!("case {number}: {message}"))?;
    }
    Ok(made)
}

fn replay_case(reader: &mut Reader, random: &mut Random, side: &mut dyn Linker, made: &mut Made) -> Result<(), String> {
    let (old, abi, area) = (without_kind_3(reader.list()?), reader.list()?, reader.list()?);
    let [stub_lists] = reader.words()?;
    let stubs = (0..stub_lists).map(|_| reader.list()).collect::<Result<Vec<_>, _>>()?;
    let mut statics: Vec<u32> = (0..records(&old)).map(|_| inserted(random)).collect();
    let (numbers, missing) = (vec![0; numbers::WORDS], vec![0; 33 * 64]);
    let mut found = State { set: widened(&old, &statics), numbers: numbers.clone(), area: area.clone(), missing: missing.clone() };
    let mut expected = State { set: old, numbers, area, missing };
    let case = Case { abi, stubs, ..Case::default() };
    perform(side, &case, Call::Fill, &mut found);
    let [calls] = reader.words()?;
    let mut clashed = false;
    for number in 0..calls {
        let [kind, class, interface, stubs, refusal, first, second] = reader.words()?;
        let before = expected.set.clone();
        reader.change(&mut expected.set)?;
        reader.change(&mut expected.area)?;
        let stubs = stubs as usize;
        let call = if kind == 0 { Call::Link { class, stubs } } else { Call::Ask { class, interface, stubs } };
        // from a link on that inherits two signatures of one fixed index what is stored is the Rust's, which loses an entry
        clashed = clashed || (kind == 0 && model::link_clashes(found.sheets(&case.abi), class, &found.area));
        if clashed {
            continue;
        }
        if kind == 0 && refusal == 0 {
            let own = &mut statics[class as usize - 1];
            let linked = linked_statics(&before, class).unwrap_or(*own);
            made.counted += usize::from(linked != *own);
            *own = linked;
        }
        let (answer, stored) = (perform(side, &case, call, &mut found), Answer { refusal, first, second });
        let (same_set, same_area) = (found.set == widened(&expected.set, &statics), found.area == expected.area);
        if answer != stored || !same_set || !same_area {
            return Err(format!("call {number} ({call}): stored {stored:?}, found {answer:?}; class words {same_set}, area {same_area}"));
        }
        made.calls += 1;
    }
    Ok(())
}

/// Row 4 refused kind 3 when these were stored: it becomes 4, which row 4 refuses now.
fn without_kind_3(mut old: Vec<u32>) -> Vec<u32> {
    let records = records(&old);
    for record in old.get_mut(6..).unwrap_or_default().chunks_exact_mut(OLD_WORDS).take(records) {
        if record[KIND] == 3 {
            record[KIND] = 4;
        }
    }
    old
}

/// How many records are there whole: fewer than the count says where the words end before.
fn records(old: &[u32]) -> usize {
    let whole = old.len().saturating_sub(6) / OLD_WORDS;
    old.first().map_or(0, |&count| count as usize).min(whole)
}

fn inserted(random: &mut Random) -> u32 {
    match random.below(4) {
        0 => 0,
        1 => random.below(9),
        2 => random.pick(&[7, 1024, 4096, 4097, u32::MAX]),
        _ => random.word(),
    }
}

/// The words with one more after each of the first records.
fn widened(old: &[u32], statics: &[u32]) -> Vec<u32> {
    let (counts, rest) = old.split_at(old.len().min(6));
    let (records, after) = rest.split_at(OLD_WORDS * statics.len());
    let records = records.chunks_exact(OLD_WORDS).zip(statics).flat_map(|(record, word)| record.iter().chain([word]));
    counts.iter().chain(records).chain(after).copied().collect()
}

/// The static words that a link leaves, by the old words that it is lent; none for a generated class, which keeps its own.
fn linked_statics(old: &[u32], class: u32) -> Option<u32> {
    let record = &old[6 + OLD_WORDS * (class as usize - 1)..][..OLD_WORDS];
    let fields = 6 + OLD_WORDS * old[0] as usize + 6 * old[1] as usize;
    let text = fields + 6 * old[2] as usize + old[3] as usize + old[4] as usize;
    let byte = |at: u32| old[text + at as usize / 4].to_le_bytes()[at as usize % 4];
    let width = |field: &[u32]| match (field[3], byte(field[2])) {
        (1, b'J' | b'D') => 2,
        _ => 1,
    };
    let own = old[fields + 6 * record[FIRST_FIELD] as usize..].chunks_exact(6).take(record[FIRST_FIELD + 1] as usize);
    match record[KIND] {
        0 => Some(own.filter(|field| field[4] & 8 != 0).map(width).sum()),
        1 => None,
        _ => Some(0),
    }
}
