//! The list of the signatures' numbers: what a filling of it is, by the parts in order; whether it tells the signatures of its sheets apart;
//! and what a link leaves in a list that does, by the parts of the records that it left.

use std::collections::{HashMap, HashSet};

use crate::case::Call;
use crate::compare::State;
use crate::sheet::{Abi, Set, class_word};
use crate::side::Answer;

use super::rows;

/// The list's words, and the place of ABI slot 0.
pub const WORDS: usize = 1024;
const FIRST_SLOT: usize = 512;
/// Class words enough for every set, and the most text bytes.
const CLASS_WORDS: usize = 11_684;
const MOST_TEXT: usize = 8192;

/// A name and a descriptor.
type Parts<'a> = (&'a str, &'a str);

/// The places in use, each with the parts of its record.
fn used<'a>(set: &'a Set, abi: &'a Abi) -> impl Iterator<Item = (usize, Parts<'a>)> {
    let methods = set.methods.iter().map(|method| (set.part(method.name), set.part(method.descriptor)));
    let slots = abi.slots.iter().map(|slot| (abi.part(slot.name), abi.part(slot.descriptor)));
    (0..).zip(methods).chain((FIRST_SLOT..).zip(slots))
}

/// A filling of both sheets: the places in the order of their parts, those of equal parts one after the other, the first place first.
pub fn filling(set: &Set, abi: &Abi) -> [u32; WORDS] {
    let mut places: Vec<(Parts, usize)> = used(set, abi).map(|(place, parts)| (parts, place)).collect();
    places.sort_unstable();
    let mut numbers = [0; WORDS];
    for alike in places.chunk_by(|(one, _), (other, _)| one == other) {
        for (_, place) in alike {
            numbers[*place] = alike[0].1 as u32;
        }
    }
    numbers
}

/// A filling of words of any kind: zeros where rows 3 to 5 refuse them.
pub fn filling_of(set: &[u32], abi: &[u32]) -> Vec<u32> {
    rows::sheets(set, abi).map_or([0; WORDS], |(set, abi)| filling(&set, &abi)).to_vec()
}

/// The places in use, each with whether its name begins with `<`; none where rows 3 to 5 refuse the words.
pub fn used_places(set: &[u32], abi: &[u32]) -> Vec<(usize, bool)> {
    let places = |(set, abi): (Set, Abi)| used(&set, &abi).map(|(place, (name, _))| (place, name.starts_with('<'))).collect();
    rows::sheets(set, abi).map(places).unwrap_or_default()
}

/// Whether of two places in use the numbers are equal just where the parts are. The list has its 1,024 words.
pub fn is_faithful(set: &Set, abi: &Abi, numbers: &[u32]) -> bool {
    let (mut numbered, mut known) = (HashMap::new(), HashMap::new());
    used(set, abi).all(|(place, parts)| {
        *numbered.entry(parts).or_insert(numbers[place]) == numbers[place] && *known.entry(numbers[place]).or_insert(parts) == parts
    })
}

/// Both sheets' words with each signature called by its number, so that whoever compares bytes compares numbers; more class words are lent.
/// None where rows 3 to 5 refuse the sheets, there is no room for the names, or of two signatures of one number just one begins with `<`.
pub fn renamed(set: &[u32], abi: &[u32], numbers: &[u32]) -> Option<[Vec<u32>; 2]> {
    let (mut set, mut abi) = rows::numbered_sheets(set, abi, numbers).ok()?;
    let mut names: HashMap<u32, String> = HashMap::new();
    for (place, (name, _)) in used(&set, &abi) {
        let called = format!("{}{}", if name.starts_with('<') { '<' } else { 'n' }, numbers[place]);
        if *names.entry(numbers[place]).or_insert(called.clone()) != called {
            return None;
        }
    }
    let mut text = Names::new(&names, &mut set.text);
    for (record, number) in set.methods.iter_mut().zip(numbers) {
        (record.name, record.descriptor) = text.called(*number);
    }
    let mut abi_text = Names::new(&names, &mut abi.text);
    for (row, number) in abi.slots.iter_mut().zip(&numbers[FIRST_SLOT..]) {
        (row.name, row.descriptor) = abi_text.called(*number);
    }
    let mut words = set.encode();
    words.resize(CLASS_WORDS, 0);
    (set.text.len() <= MOST_TEXT && abi.text.len() <= MOST_TEXT).then(|| [words, abi.encode()])
}

/// Signatures by their numbers, put into a text as they are asked for.
struct Names<'a> {
    names: &'a HashMap<u32, String>,
    text: &'a mut Vec<u8>,
    put: HashMap<u32, (u32, u32)>,
    descriptor: (u32, u32),
}

impl<'a> Names<'a> {
    fn new(names: &'a HashMap<u32, String>, text: &'a mut Vec<u8>) -> Self {
        let descriptor = put(text, "()V");
        Self { names, text, put: HashMap::new(), descriptor }
    }

    /// The parts that a number's signature is called by.
    fn called(&mut self, number: u32) -> ((u32, u32), (u32, u32)) {
        let (names, text) = (self.names, &mut *self.text);
        (*self.put.entry(number).or_insert_with(|| put(text, &names[&number])), self.descriptor)
    }
}

fn put(text: &mut Vec<u8>, part: &str) -> (u32, u32) {
    text.extend_from_slice(part.as_bytes());
    ((text.len() - part.len()) as u32, part.len() as u32)
}

/// Writes the numbers of the methods that a link added, or copied, into a list that was faithful to the set before: each gets that of its
/// parts.
pub fn write(numbers: &mut [u32], before: &Set, abi: &Abi, after: &Set) {
    let known: HashMap<Parts, u32> = used(before, abi).map(|(place, parts)| (parts, numbers[place])).collect();
    for (place, parts) in used(after, abi).take(after.methods.len()).skip(before.methods.len()) {
        numbers[place] = known[&parts];
    }
}

/// What is wrong with the list that an accepted call left, whoever made it and whatever was in it before.
pub fn fault(abi: &[u32], call: Call, answer: Answer, before: &State, after: &State) -> Option<String> {
    match call {
        Call::Fill if answer.refusal == 0 => {
            let expected = [&filling_of(&before.set, abi), &before.numbers[WORDS..]].concat();
            (after.numbers != expected).then(|| "the list of numbers is no filling".to_owned())
        }
        Call::Link { class, .. } if answer.refusal == 0 => Link::new(abi, class, before, after).fault(),
        _ => (after.numbers != before.numbers).then(|| "the list of numbers is changed".to_owned()),
    }
}

/// An accepted link: the sheets before and after it, and both lists.
struct Link<'a> {
    class: u32,
    abi: Abi,
    sets: [Set; 2],
    numbers: [&'a [u32]; 2],
}

impl<'a> Link<'a> {
    fn new(abi: &[u32], class: u32, before: &'a State, after: &'a State) -> Self {
        let decoded = |words: &[u32]| Set::decode(words).expect("an accepted set has its sections");
        let abi = Abi::decode(abi).expect("an accepted ABI has its sections");
        Self { class, abi, sets: [decoded(&before.set), decoded(&after.set)], numbers: [&before.numbers, &after.numbers] }
    }

    /// Copied methods keep their own numbers, added ones have number and parts of one that was there, all other places are as they were; and
    /// a list that told the signatures apart still does.
    fn fault(&self) -> Option<String> {
        let ([old, new], [before, after]) = (&self.sets, self.numbers);
        let (methods, grown) = (old.methods.len(), new.methods.len());
        let own = if grown == methods { 0..0 } else { old.class(self.class).range(class_word::METHODS) };
        let copied = methods..methods + own.len();
        let added: HashSet<(u32, Parts)> =
            used(new, &self.abi).take(grown).skip(copied.end).map(|(at, parts)| (after[at], parts)).collect();
        let there: HashSet<(u32, Parts)> = used(old, &self.abi).map(|(place, parts)| (before[place], parts)).collect();
        let elsewhere = |numbers: &[u32]| [&numbers[..methods], &numbers[grown..]].concat();
        let was_faithful = is_faithful(old, &self.abi, before);
        match () {
            () if elsewhere(before) != elsewhere(after) => Some("a number of no new method is changed".to_owned()),
            () if before[own] != after[copied.clone()] => Some("a copied method has not its own number".to_owned()),
            () if !added.is_subset(&there) => Some("an added method has a number that is not its signature's".to_owned()),
            () if was_faithful && !is_faithful(new, &self.abi, after) => Some("the numbers tell the signatures apart no more".to_owned()),
            () => None,
        }
    }
}
