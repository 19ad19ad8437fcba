//! The corpus's words: lists in runs, changes in pairs, a sum at the end.

use crate::sheet::packed;

/// A run shorter than this is written out.
const SHORTEST_RUN: usize = 4;

#[derive(Default)]
pub struct Writer(Vec<u32>);

impl Writer {
    pub fn len(&self) -> usize {
        self.0.len()
    }

    pub fn words(&mut self, words: &[u32]) {
        self.0.extend_from_slice(words);
    }

    pub fn append(&mut self, other: Self) {
        self.0.extend(other.0);
    }

    /// A list: its length, then segments until it is full. A segment is 2n and n words, or
    /// 2n + 1, a first word and a step for n words that rise by it.
    pub fn list(&mut self, words: &[u32]) {
        self.0.push(words.len() as u32);
        let mut plain = 0;
        let mut at = 0;
        while at < words.len() {
            let step = words.get(at + 1).map_or(0, |next| next.wrapping_sub(words[at]));
            let rises = words[at..].windows(2).take_while(|pair| pair[1].wrapping_sub(pair[0]) == step).count();
            if rises + 1 < SHORTEST_RUN {
                at += 1;
                continue;
            }
            self.plain(&words[plain..at]);
            self.0.extend([2 * (rises as u32 + 1) + 1, words[at], step]);
            at += rises + 1;
            plain = at;
        }
        self.plain(&words[plain..]);
    }

    fn plain(&mut self, words: &[u32]) {
        if !words.is_empty() {
            self.0.push(2 * words.len() as u32);
            self.words(words);
        }
    }

    /// Bytes: their number, then four a word, lowest byte first, the last filled with zeros.
    pub fn bytes(&mut self, bytes: &[u8]) {
        self.0.push(bytes.len() as u32);
        self.list(&packed(bytes));
    }

    /// What changed: the number of changes, then position and new word of each.
    pub fn changes(&mut self, before: &[u32], after: &[u32]) {
        let changes: Vec<(u32, u32)> =
            (0..).zip(before.iter().zip(after)).filter(|(_, (old, new))| old != new).map(|(at, (_, new))| (at, *new)).collect();
        self.0.push(changes.len() as u32);
        self.0.extend(changes.iter().flat_map(|&(at, word)| [at, word]));
    }

    /// Words as they are: their number, then these.
    pub fn plain_words(&mut self, words: &[u32]) {
        self.0.push(words.len() as u32);
        self.words(words);
    }

    /// Bytes as they are: their number, then these, packed.
    pub fn plain_bytes(&mut self, bytes: &[u8]) {
        self.0.push(bytes.len() as u32);
        self.words(&packed(bytes));
    }

    /// A slice of words before and after a call: its length; how many words are stored of it before and after, always the first, so that
    /// the others are `rest` before, and after as before; then these.
    pub fn word_slice(&mut self, before: &[u32], after: &[u32], rest: u32) {
        let [stored, changed] = self.lengths(before, after, rest);
        self.words(&before[..stored]);
        self.words(&after[..changed]);
    }

    /// A slice of bytes likewise, packed.
    pub fn byte_slice(&mut self, before: &[u8], after: &[u8], rest: u8) {
        let [stored, changed] = self.lengths(before, after, rest);
        self.words(&packed(&before[..stored]));
        self.words(&packed(&after[..changed]));
    }

    fn lengths<T: Copy + PartialEq>(&mut self, before: &[T], after: &[T], rest: T) -> [usize; 2] {
        let stored = before.iter().rposition(|&unit| unit != rest).map_or(0, |last| last + 1);
        let changed = (0..before.len()).rev().find(|&at| before[at] != after[at]).map_or(0, |last| last + 1);
        self.words(&[before.len(), stored, changed].map(|length| length as u32));
        [stored, changed]
    }

    pub fn into_words(self) -> Vec<u32> {
        self.0
    }

    /// The words with their sum, modulo 2^32, behind them.
    pub fn finish(mut self) -> Vec<u32> {
        self.0.push(self.0.iter().fold(0, |sum, word| sum.wrapping_add(*word)));
        self.0
    }
}

pub struct Reader<'a>(&'a [u32]);

impl<'a> Reader<'a> {
    pub fn new(corpus: &'a [u32]) -> Result<Self, String> {
        let (sum, words) = corpus.split_last().ok_or("an empty corpus")?;
        let found = words.iter().fold(0u32, |sum, word| sum.wrapping_add(*word));
        if found == *sum { Ok(Self(words)) } else { Err("the corpus's sum differs".to_owned()) }
    }

    /// Of words without a sum.
    pub fn unsummed(words: &'a [u32]) -> Self {
        Self(words)
    }

    fn take(&mut self, count: usize) -> Result<&'a [u32], String> {
        let (taken, rest) = self.0.split_at_checked(count).ok_or("the corpus ends early")?;
        self.0 = rest;
        Ok(taken)
    }

    pub fn words<const N: usize>(&mut self) -> Result<[u32; N], String> {
        Ok(self.take(N)?.try_into().expect("as many as asked for"))
    }

    pub fn list(&mut self) -> Result<Vec<u32>, String> {
        let [length] = self.words()?;
        let mut words = Vec::new();
        while words.len() < length as usize {
            let [segment] = self.words()?;
            let count = segment as usize / 2;
            if segment % 2 == 0 {
                words.extend_from_slice(self.take(count)?);
            } else {
                let [first, step] = self.words()?;
                words.extend((0..count as u32).map(|position| first.wrapping_add(step.wrapping_mul(position))));
            }
        }
        Ok(words)
    }

    pub fn bytes(&mut self) -> Result<Vec<u8>, String> {
        let [length] = self.words()?;
        let mut bytes: Vec<u8> = self.list()?.iter().flat_map(|word| word.to_le_bytes()).collect();
        bytes.truncate(length as usize);
        Ok(bytes)
    }

    pub fn plain_words(&mut self) -> Result<Vec<u32>, String> {
        let [length] = self.words()?;
        Ok(self.take(length as usize)?.to_vec())
    }

    pub fn plain_bytes(&mut self) -> Result<Vec<u8>, String> {
        let [length] = self.words()?;
        self.packed(length)
    }

    fn packed(&mut self, length: u32) -> Result<Vec<u8>, String> {
        let length = length as usize;
        let mut bytes: Vec<u8> = self.take(length.div_ceil(4))?.iter().flat_map(|word| word.to_le_bytes()).collect();
        bytes.truncate(length);
        Ok(bytes)
    }

    /// A slice of words before and after a call.
    pub fn word_slice(&mut self, rest: u32) -> Result<[Vec<u32>; 2], String> {
        let [length, stored, changed] = self.words()?;
        let (before, after) = (self.take(stored as usize)?, self.take(changed as usize)?);
        both(length as usize, before, after, rest)
    }

    /// A slice of bytes before and after a call.
    pub fn byte_slice(&mut self, rest: u8) -> Result<[Vec<u8>; 2], String> {
        let [length, stored, changed] = self.words()?;
        let (before, after) = (self.packed(stored)?, self.packed(changed)?);
        both(length as usize, &before, &after, rest)
    }

    /// Makes the stored changes.
    pub fn change(&mut self, words: &mut [u32]) -> Result<(), String> {
        let [count] = self.words()?;
        for _ in 0..count {
            let [at, word] = self.words()?;
            *words.get_mut(at as usize).ok_or("a change outside the memory")? = word;
        }
        Ok(())
    }

    pub fn end(&self) -> Result<(), String> {
        if self.0.is_empty() { Ok(()) } else { Err("words after the corpus's end".to_owned()) }
    }
}

/// A slice before and after a call, by the first units of either.
fn both<T: Copy>(length: usize, stored: &[T], changed: &[T], rest: T) -> Result<[Vec<T>; 2], String> {
    let mut before = vec![rest; length];
    before.get_mut(..stored.len()).ok_or("more is stored than lent")?.copy_from_slice(stored);
    let mut after = before.clone();
    after.get_mut(..changed.len()).ok_or("more is changed than lent")?.copy_from_slice(changed);
    Ok([before, after])
}
