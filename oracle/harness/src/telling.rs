//! Inputs that tell readings of the specification apart, by hand: calls on small sets, with the
//! answers and what a reader sees afterwards. Each row is executed on the original Rust (those of kind 3 on the harness's own judge, those of
//! `one_slot` on the model from the link on that inherits two signatures of one fixed index, those of `numbers` where the list tells other
//! signatures apart than the bytes do), on the
//! model (tests/telling.rs) and, as a stored corpus, on the proved linker (crates/corpus).

mod areas;
mod arguments;
mod asks;
pub mod assemble;
mod compiled;
mod fields;
mod growth;
mod kept;
mod links;
mod lists;
mod lookups;
mod missing_slots;
mod numbers;
mod one_slot;
mod packages;
mod sheets;
mod statics;
mod tables;

use crate::case::{Call, Case};
use crate::compare::{State, perform};
use crate::generate::{AbiClassDraft, ClassDraft};
use crate::oracle::numbers::{WORDS, filling_of};
use crate::sheet::{Set, class_word};
use crate::side::{Answer, Linker};

/// All rows, by what they are about.
pub fn rows() -> Vec<Row> {
    [
        sheets::rows(),
        links::rows(),
        areas::rows(),
        fields::rows(),
        statics::rows(),
        lookups::rows(),
        tables::rows(),
        compiled::rows(),
        growth::rows(),
        asks::rows(),
        kept::rows(),
        lists::rows(),
        packages::rows(),
        missing_slots::rows(),
        one_slot::rows(),
        numbers::rows(),
        arguments::rows(),
    ]
    .concat()
}

/// Those of class kind 3, of missing slots and of numbers, which the harness judges for itself.
pub fn own_rows() -> Vec<Row> {
    [packages::rows(), missing_slots::rows(), numbers::rows()].concat()
}

/// What is lent.
#[derive(Clone)]
pub struct Lent {
    pub set: Vec<u32>,
    pub abi: Vec<u32>,
    /// The list of numbers; else one filled from both sheets.
    pub numbers: Option<Vec<u32>>,
    pub area: Vec<u32>,
    pub stubs: Vec<u32>,
    /// The list of missing slots; else one of 7s, as long as it must be.
    pub missing: Option<Vec<u32>>,
}

/// A fresh area of 24 words, the stubs 901 to 908, and no word after the content.
pub fn lent(classes: &[ClassDraft], entries: &[AbiClassDraft]) -> Lent {
    let (set, abi) = (assemble::class_words(classes), assemble::abi_words(entries));
    Lent { set, abi, numbers: None, area: [vec![1], vec![0; 23]].concat(), stubs: (901..909).collect(), missing: None }
}

impl Lent {
    pub fn on_area(self, area: &[u32]) -> Self {
        Self { area: area.to_vec(), ..self }
    }

    /// An area of the words and 8 zeros.
    pub fn on_words(self, words: &[u32]) -> Self {
        self.on_area(&[words, &[0; 8]].concat())
    }

    pub fn on_stubs(self, stubs: &[u32]) -> Self {
        Self { stubs: stubs.to_vec(), ..self }
    }

    pub fn on_numbers(self, numbers: &[u32]) -> Self {
        Self { numbers: Some(numbers.to_vec()), ..self }
    }

    /// A list that begins with these words, with zeros after them as far as it must be long, and more 7s after it.
    pub fn on_first_numbers(self, numbers: &[u32], more: usize) -> Self {
        let zeros = vec![0; WORDS - numbers.len()];
        self.on_numbers(&[numbers, &zeros, &vec![7; more]].concat())
    }

    pub fn on_missing(self, missing: &[u32]) -> Self {
        Self { missing: Some(missing.to_vec()), ..self }
    }

    /// With n zero words after the content of the class words.
    pub fn spare(self, n: usize) -> Self {
        let set = [self.set, vec![0; n]].concat();
        Self { set, ..self }
    }

    /// With these words of the class words, from a place on, in place of its own.
    pub fn on_set(mut self, place: usize, words: &[u32]) -> Self {
        self.set.truncate(place);
        self.set.extend(words);
        self
    }

    /// With one of the class words, or of the ABI words, changed.
    pub fn with_word(mut self, place: usize, word: u32) -> Self {
        self.set[place] = word;
        self
    }

    pub fn with_abi_word(mut self, place: usize, word: u32) -> Self {
        self.abi[place] = word;
        self
    }
}

/// A link with the lent stubs.
pub fn link(class: u32) -> Call {
    Call::Link { class, stubs: 0 }
}

pub fn ask(class: u32, interface: u32) -> Call {
    Call::Ask { class, interface, stubs: 0 }
}

pub fn missing(class: u32) -> Call {
    Call::Missing { class }
}

pub fn fill() -> Call {
    Call::Fill
}

/// The word that lies n below zero.
pub fn minus(n: u32) -> u32 {
    0u32.wrapping_sub(n)
}

/// What is seen after the calls.
#[derive(Clone)]
enum Left {
    /// A class's table, the indices of its fields, its instance words, and name, flags and target of its methods; all classes' static words.
    Table(u32, Vec<u32>),
    Indices(u32, Vec<u32>),
    Words(u32, u32),
    Statics(Vec<u32>),
    Methods(u32, Vec<(String, u32, u32)>),
    /// The area, with zeros after these words; the class words; some of them from a place on.
    Area(Vec<u32>),
    Set(Vec<u32>),
    SetPart(usize, Vec<u32>),
    /// The list's words of a class, with zeros after these; the whole list.
    Counted(u32, Vec<u32>),
    Missing(Vec<u32>),
    /// Some of the list of numbers from a place on.
    Numbers(usize, Vec<u32>),
}

/// Calls on what is lent, with what they answer and leave.
#[derive(Clone)]
pub struct Row {
    pub name: &'static str,
    pub case: Case,
    answers: Vec<(u32, u32, u32)>,
    left: Vec<Left>,
}

/// Calls, one after the other. What is expected of them is added to the row.
pub fn row(name: &'static str, lent: Lent, calls: &[Call]) -> Row {
    let Lent { set, abi, numbers, area, stubs, missing } = lent;
    let numbers = numbers.unwrap_or_else(|| filling_of(&set, &abi));
    let missing = missing.unwrap_or_else(|| vec![7; 33 * set.first().map_or(0, |&classes| classes.min(64) as usize)]);
    let case = Case { set, abi, numbers, area, missing, stubs: vec![stubs], calls: calls.to_vec(), rebuilds: true, spoiled: None };
    Row { name, case, answers: Vec::new(), left: Vec::new() }
}

impl Row {
    /// The second call and those after it lend these stubs instead.
    pub fn then_stubs(mut self, stubs: &[u32]) -> Self {
        self.case.stubs.push(stubs.to_vec());
        for call in &mut self.case.calls[1..] {
            call.lend(1);
        }
        self
    }

    /// Each call lends the stub list at its own place.
    pub fn each_stubs(mut self, lists: &[&[u32]]) -> Self {
        self.case.stubs = lists.iter().map(|list| list.to_vec()).collect();
        for (place, call) in self.case.calls.iter_mut().enumerate() {
            call.lend(place);
        }
        self
    }

    /// Refusal, then place and slots of a link, place and nodes of an ask, a count and 0, for each call.
    pub fn answers(mut self, answers: &[(u32, u32, u32)]) -> Self {
        self.answers = answers.to_vec();
        self
    }

    fn left(mut self, left: Left) -> Self {
        self.left.push(left);
        self
    }

    pub fn table(self, class: u32, words: &[u32]) -> Self {
        self.left(Left::Table(class, words.to_vec()))
    }

    pub fn indices(self, class: u32, indices: &[u32]) -> Self {
        self.left(Left::Indices(class, indices.to_vec()))
    }

    pub fn words(self, class: u32, words: u32) -> Self {
        self.left(Left::Words(class, words))
    }

    /// The static words of every class.
    pub fn statics(self, words: &[u32]) -> Self {
        self.left(Left::Statics(words.to_vec()))
    }

    pub fn methods(self, class: u32, methods: &[(&str, u32, u32)]) -> Self {
        self.left(Left::Methods(class, methods.iter().map(|&(name, flags, target)| (name.to_owned(), flags, target)).collect()))
    }

    pub fn area(self, words: &[u32]) -> Self {
        self.left(Left::Area(words.to_vec()))
    }

    pub fn set(self, words: &[u32]) -> Self {
        self.left(Left::Set(words.to_vec()))
    }

    pub fn set_part(self, place: usize, words: &[u32]) -> Self {
        self.left(Left::SetPart(place, words.to_vec()))
    }

    /// The list's words of a class: the count, then those of the bits, zeros after these.
    pub fn counted(self, class: u32, words: &[u32]) -> Self {
        self.left(Left::Counted(class, words.to_vec()))
    }

    /// The whole list.
    pub fn missing(self, words: &[u32]) -> Self {
        self.left(Left::Missing(words.to_vec()))
    }

    /// The list of numbers from a place on.
    pub fn numbers(self, place: usize, numbers: &[u32]) -> Self {
        self.left(Left::Numbers(place, numbers.to_vec()))
    }

    /// Makes the calls on a side; what differs from the row, if anything.
    pub fn check(&self, side: &mut dyn Linker) -> Result<(), String> {
        let mut state = State::of(&self.case);
        let answers: Vec<Answer> = self.case.calls.iter().map(|&call| perform(side, &self.case, call, &mut state)).collect();
        let told: Vec<_> = answers.iter().map(|answer| (answer.refusal, answer.first, answer.second)).collect();
        if self.answers.is_empty() && told.iter().any(|answer| answer.0 != 0) {
            return Err(format!("{}: answers {told:?}, and no refusal is expected", self.name));
        }
        if !self.answers.is_empty() && self.answers != told {
            return Err(format!("{}: answers {told:?}, expected {:?}", self.name, self.answers));
        }
        self.left.iter().try_for_each(|left| seen(left, &state).map_err(|found| format!("{}: found {found}", self.name)))
    }
}

/// Whether this is what is left; else what was found.
fn seen(left: &Left, state: &State) -> Result<(), String> {
    let set = || Set::decode(&state.set).expect("the class words have their sections");
    match left {
        Left::Table(class, words) => {
            let (place, slots) = set().class(*class).span(class_word::PLACE);
            same(words, &state.area[place as usize + 1..][..slots as usize])
        }
        Left::Indices(class, indices) => same(indices, &set().fields_of(*class).iter().map(|field| field.last).collect::<Vec<_>>()),
        Left::Words(class, words) => same(&[*words], &[set().class(*class).get(class_word::INSTANCE_WORDS)]),
        Left::Statics(words) => same(words, &set().classes.iter().map(|class| class.get(class_word::STATIC_WORDS)).collect::<Vec<_>>()),
        Left::Methods(class, methods) => {
            let set = set();
            let found = set.methods_of(*class).iter().map(|method| (set.part(method.name).to_owned(), method.flags, method.last));
            same(methods, &found.collect::<Vec<_>>())
        }
        Left::Area(words) => {
            let zeros = vec![0; state.area.len().saturating_sub(words.len())];
            same(&[words.clone(), zeros].concat(), &state.area)
        }
        Left::Set(words) => same(words, &state.set),
        Left::SetPart(place, words) => same(words, &state.set[*place..][..words.len()]),
        Left::Counted(class, words) => {
            let own = &state.missing[33 * (*class as usize - 1)..][..33];
            same(&[words.clone(), vec![0; 33 - words.len()]].concat(), own)
        }
        Left::Missing(words) => same(words, &state.missing),
        Left::Numbers(place, words) => same(words, &state.numbers[*place..][..words.len()]),
    }
}

fn same<T: PartialEq + std::fmt::Debug>(expected: &[T], found: &[T]) -> Result<(), String> {
    if expected == found { Ok(()) } else { Err(format!("{found:?}, expected {expected:?}")) }
}
