//! Which slots count as missing. That a slot took a stub is the Rust's own doing; which slot of the parent's table it is a copy of is
//! followed here, place by place, and every word that this leads to must be the Rust's.

use crate::sheet::{Abi, AbiClassRecord, Set, class_word, range};

use super::machine::Linked;
use super::packages::{Known, chain, method, parent, reading};

/// The list's words of a class.
pub const WORDS: usize = 33;

/// A method by what it is called, with the number of its class.
#[derive(Clone, Copy)]
struct Method<'a> {
    name: &'a str,
    descriptor: &'a str,
    flags: u32,
    target: u32,
    class: u32,
}

impl Method<'_> {
    fn can_have_slot(&self) -> bool {
        self.flags & 0x000A == 0 && !self.name.starts_with('<')
    }

    fn is_called_as(&self, other: &Method) -> bool {
        (self.name, self.descriptor) == (other.name, other.descriptor)
    }
}

/// A slot on its way into a table: its word, its method, and the parent's slot that it is a copy of.
#[derive(Clone, Copy)]
struct Place<'a> {
    word: u32,
    method: Option<Method<'a>>,
    copy_of: Option<usize>,
}

const EMPTY: Place = Place { word: 0, method: None, copy_of: None };

fn place_of(method: Method) -> Place {
    Place { word: method.target, method: Some(method), copy_of: None }
}

fn slot_of(table: &[Place], method: &Method) -> Option<usize> {
    table.iter().position(|place| place.method.is_some_and(|other| other.is_called_as(method)))
}

/// A link as it is followed.
struct Followed<'a> {
    set: &'a Set,
    abi: &'a Abi,
    class: u32,
    /// The parent's slots, each a copy of itself.
    above: Vec<Place<'a>>,
    declared: Vec<Method<'a>>,
    /// The methods that the Rust added.
    added: Vec<Method<'a>>,
}

/// Of each slot of the table that the Rust made the parent's slot that it is a copy of.
pub fn copies(set: &Set, abi: &Abi, area: &[u32], class: u32, linked: &Linked) -> Vec<Option<usize>> {
    let followed = Followed::new(set, abi, area, class, linked);
    let record = set.class(class);
    let places = match record.get(class_word::KIND) {
        0 if record.get(class_word::FLAGS) & 0x0200 != 0 => followed.slotted().collect(),
        1 if record.get(class_word::COMPILER) != 0 => followed.compiled(),
        0 | 1 => followed.built(),
        _ => followed.above,
    };
    let is_stubbed = |slot: usize| linked.stubbed.binary_search(&slot).is_ok();
    let is_right = |slot: usize| if places[slot].word == 0 { is_stubbed(slot) } else { places[slot].word == linked.table[slot] };
    let all = places.len() == linked.table.len() && linked.stubbed.iter().all(|&slot| places[slot].word == 0);
    assert!(all && (0..places.len()).all(is_right), "what is followed is not the Rust's table");
    places.iter().map(|place| place.copy_of).collect()
}

impl<'a> Followed<'a> {
    fn new(set: &'a Set, abi: &'a Abi, area: &[u32], class: u32, linked: &'a Linked) -> Self {
        let told = |known: Known| {
            let record = method(set, known);
            let (name, descriptor) = (set.part(record.name), set.part(record.descriptor));
            Method { name, descriptor, flags: record.flags, target: record.last, class: known.0 }
        };
        let read = chain(set, parent(set, class)).take(1).flat_map(|above| reading(set, abi, area, above));
        let above = read.enumerate().map(|(slot, (word, known))| Place { word, method: known.map(told), copy_of: Some(slot) });
        let own = set.class(class).range(class_word::METHODS);
        let added = linked.methods[own.len()..].iter().map(|member| {
            let (name, descriptor) = (&*member.name, &*member.descriptor);
            Method { name, descriptor, flags: member.flags, target: member.last, class }
        });
        Self { set, abi, class, above: above.collect(), declared: own.map(|place| told((class, place))).collect(), added: added.collect() }
    }

    /// The declared methods that can have a slot.
    fn slotted(&self) -> impl Iterator<Item = Place<'a>> {
        self.declared.iter().filter(|method| method.can_have_slot()).map(|method| place_of(*method))
    }

    /// The ABI's records of a class and its ancestors.
    fn entries(&self, class: u32) -> impl Iterator<Item = &'a AbiClassRecord> {
        let (set, abi) = (self.set, self.abi);
        chain(set, class).filter_map(move |class| abi.classes.iter().find(|entry| abi.part(entry.name) == set.name(class)))
    }

    /// The slot that the ABI fixes for a method in the chain of a class.
    fn fixed(&self, class: u32, method: &Method) -> Option<usize> {
        let called = |name, descriptor| self.abi.part(name) == method.name && self.abi.part(descriptor) == method.descriptor;
        let mut rows = self.entries(class).filter_map(|entry| {
            let mut rows = self.abi.slots[range(entry.slots)].iter();
            rows.find(|row| called(row.name, row.descriptor))
        });
        rows.next().map(|row| row.index as usize)
    }

    fn built(&self) -> Vec<Place<'a>> {
        let ends = self.entries(self.class).flat_map(|entry| {
            let rows = self.abi.slots[range(entry.slots)].iter().map(|row| row.index as usize + 1);
            rows.chain((entry.size_plus_1 as usize).checked_sub(1))
        });
        let least = ends.max().unwrap_or(0);
        let has_entry = self.abi.classes.iter().any(|entry| self.abi.part(entry.name) == self.set.name(self.class));
        let mut table = if has_entry { Vec::new() } else { self.above.clone() };
        table.resize(table.len().max(least), EMPTY);
        for place in self.above.iter().filter(|_| has_entry) {
            match place.method.map(|method| self.fixed(self.class, &method)) {
                Some(Some(slot)) => table[slot] = *place,
                Some(None) => table.push(*place),
                None => {}
            }
        }
        for place in self.slotted() {
            let method = place.method.expect("an own method is known");
            match self.fixed(self.class, &method).or_else(|| slot_of(&table, &method)) {
                Some(slot) => table[slot] = place,
                None => table.push(place),
            }
        }
        table
    }

    /// The parent's slots as a compiler table has them: empty where the compiler did not link the method's class, unless the ABI fixes the slot.
    fn native(&self) -> Vec<Place<'a>> {
        let above = parent(self.set, self.class);
        let is_emptied = |slot: usize, method: Method| {
            self.set.class(method.class).get(class_word::LINK_STATE) != 3 && self.fixed(above, &method) != Some(slot)
        };
        let emptied = |(slot, place): (usize, &Place<'a>)| match place.method {
            Some(method) if is_emptied(slot, method) => EMPTY,
            _ => *place,
        };
        self.above.iter().enumerate().map(emptied).collect()
    }

    fn compiled(&self) -> Vec<Place<'a>> {
        let native = self.native();
        let own = || self.declared.iter().chain(&self.added).copied();
        let by_target = |word: u32| own().chain(native.iter().filter_map(|place| place.method)).find(|method| method.target == word);
        let (first, slots) = self.set.class(self.class).span(class_word::COMPILER);
        let words = &self.set.compiler[first as usize - 1..][..slots as usize];
        let mut table: Vec<Place> = Vec::new();
        for (slot, &word) in words.iter().enumerate() {
            let from_native = native.get(slot).copied().unwrap_or(EMPTY);
            table.push(if word == 0 { from_native } else { Place { word, method: by_target(word), copy_of: None } });
        }
        let appended = self.above.iter().filter_map(|place| Some(Place { copy_of: place.copy_of, ..place_of(place.method?) }));
        for place in own().map(place_of).chain(appended) {
            if place.method.is_some_and(|method| method.can_have_slot() && slot_of(&table, &method).is_none()) {
                table.push(place);
            }
        }
        table
    }
}

/// Whether the list counts a slot of a class.
fn is_counted(list: &[u32], class: u32, slot: usize) -> bool {
    let word = list[WORDS * (class as usize - 1) + 1 + slot / 32];
    word & (1 << (slot % 32)) != 0
}

/// What an accepted link leaves in the list: the count, then a bit for each slot of 1,024, by which slots took a stub and which are copies of
/// slots that the list counts.
pub fn write(list: &mut [u32], class: u32, parent: u32, stubbed: &[usize], copies: &[Option<usize>]) {
    let counts = |slot: usize| stubbed.binary_search(&slot).is_ok() || copies[slot].is_some_and(|from| is_counted(list, parent, from));
    let bits: Vec<u32> = (0..1024).map(|slot| u32::from(slot < copies.len() && counts(slot))).collect();
    let words = bits.chunks_exact(32).map(|word| word.iter().rev().fold(0, |sum, bit| 2 * sum + bit));
    let written: Vec<u32> = std::iter::once(bits.iter().sum()).chain(words).collect();
    list[WORDS * (class as usize - 1)..][..WORDS].copy_from_slice(&written);
}

/// Asking, after the sheets' own rows.
pub fn ask(set: &Set, list: &[u32], class: u32) -> Result<u32, u32> {
    let is_linked = (1..=set.classes.len() as u32).contains(&class) && set.class(class).is_linked();
    match is_linked {
        false => Err(6),
        true if list.len() < WORDS * set.classes.len() => Err(15),
        true => Ok(list[WORDS * (class as usize - 1)]),
    }
}
