//! A kept interface table is still the right one: lists of links and asks with one stub list. After each call each class is asked for each again, on a copy of the
//! memory and on one whose lists are empty, where the table is built afresh: "a table found on a class's list is the one that would be built afresh at that
//! moment, slot for slot". And "no interface occurs twice on one list, so the nodes read never exceed the number of classes".

use std::collections::{BTreeMap, BTreeSet};
use std::time::Instant;

use crate::case::{Call, Case};
use crate::compare::{State, perform};
use crate::generate;
use crate::sheet::{Set, class_word};
use crate::side::{Answer, Linker};

/// What is counted, each of which must be reached.
const REACHED: [&str; 20] = [
    "calls",
    "calls refused",
    "links after a node",
    "links that add methods after a node",
    "asks that put a node",
    "asks that find one",
    "found again: as built afresh",
    "found again: no room to build another",
    "found again: a stub in it",
    "found again: no slot in it",
    "found again: a class as its own interface",
    "found again: what an ask of the list answered",
    "found again: in an area that had words behind the free place",
    "found again: on an array class's list",
    "found again: on the list of a class of kind 3",
    "not there: built on either",
    "not there: refused by 15",
    "not there: refused by 16",
    "lists of three nodes and more",
    "lists of as many nodes as classes",
];

#[derive(Default)]
struct Counts(BTreeMap<&'static str, u64>);

impl Counts {
    fn hit(&mut self, what: &'static str) {
        *self.0.entry(what).or_default() += 1;
    }
}

/// At least `count` calls, and what is asked after each; true if every table is right and everything is reached.
pub fn run(seed: u64, count: u64, side: &mut dyn Linker) -> bool {
    let start = Instant::now();
    let mut counts = Counts::default();
    let mut number = 0;
    while counts.0.get("calls").is_none_or(|&calls| calls < count) {
        let case = generate::kept(seed, number);
        if let Err(message) = judge(&case, side, &mut counts) {
            println!("seed {seed}, case {number}: {message}\n{case}");
            return false;
        }
        number += 1;
    }
    for what in REACHED {
        let times = counts.0.get(what).copied().unwrap_or_default();
        println!("{times:>10}  {what}{}", if times == 0 { "   NEVER REACHED" } else { "" });
    }
    println!("seed {seed}: {number} lists in {:.1} s, each table as built afresh", start.elapsed().as_secs_f64());
    REACHED.iter().all(|what| counts.0.contains_key(what))
}

/// The places that asks of the list answered, by class and interface.
type Told = BTreeMap<(u32, u32), u32>;

fn judge(case: &Case, side: &mut dyn Linker, counts: &mut Counts) -> Result<(), String> {
    let mut state = State::of(case);
    perform(side, case, Call::Fill, &mut state);
    let mut told = Told::new();
    for (number, &call) in case.calls.iter().enumerate() {
        let before = state.clone();
        let answer = perform(side, case, call, &mut state);
        counts.hit("calls");
        match call {
            _ if answer.refusal != 0 => counts.hit("calls refused"),
            Call::Ask { class, interface, .. } => {
                counts.hit(if state.area == before.area { "asks that find one" } else { "asks that put a node" });
                told.insert((class, interface), answer.first);
            }
            _ if !told.is_empty() => {
                counts.hit("links after a node");
                if decoded(&state).methods.len() != decoded(&before).methods.len() {
                    counts.hit("links that add methods after a node");
                }
            }
            _ => {}
        }
        after(case, side, &state, &told, counts).map_err(|message| format!("after call {}: {message}", number + 1))?;
    }
    Ok(())
}

fn decoded(state: &State) -> Set {
    Set::decode(&state.set).expect("the set is valid")
}

/// The place of a class's list head.
fn head(set: &Set, class: u32) -> usize {
    let (place, slots) = set.class(class).span(class_word::PLACE);
    (place + slots + 1) as usize
}

/// Each class asked for each again; each list walked.
fn after(case: &Case, side: &mut dyn Linker, state: &State, told: &Told, counts: &mut Counts) -> Result<(), String> {
    let set = decoded(state);
    let classes = set.classes.len() as u32;
    let mut emptied = state.clone();
    for class in (1..=classes).filter(|&class| set.class(class).is_linked()) {
        emptied.area[head(&set, class)] = 0;
    }
    for class in 1..=classes {
        let nodes = if set.class(class).is_linked() { nodes(state, &set, class)? } else { BTreeMap::new() };
        if nodes.len() >= 3 {
            counts.hit("lists of three nodes and more");
        }
        if nodes.len() == classes as usize {
            counts.hit("lists of as many nodes as classes");
        }
        for interface in 1..=classes {
            let call = Call::Ask { class, interface, stubs: 0 };
            let (mut kept, mut bare) = (state.clone(), emptied.clone());
            let again = perform(side, case, call, &mut kept);
            let afresh = perform(side, case, call, &mut bare);
            let slots = set.class(interface).get(class_word::SLOTS);
            let pair = Pair { classes, slots, again, afresh, kept: &kept, bare: &bare };
            if nodes.contains_key(&interface) {
                where_found(case, set.class(class).get(class_word::KIND), counts);
            }
            let judged = match nodes.get(&interface) {
                Some(&node) => pair.found(state, node, told.get(&(class, interface)), class == interface, counts),
                None => pair.missed(state, told.get(&(class, interface)), counts),
            };
            judged.map_err(|message| format!("class {class}, interface {interface}: {message}; again {again:?}, afresh {afresh:?}"))?;
        }
    }
    Ok(())
}

/// What a node that is found again stands in.
fn where_found(case: &Case, kind: u32, counts: &mut Counts) {
    if case.area[1..].iter().any(|&word| word != 0) {
        counts.hit("found again: in an area that had words behind the free place");
    }
    match kind {
        2 => counts.hit("found again: on an array class's list"),
        3 => counts.hit("found again: on the list of a class of kind 3"),
        _ => {}
    }
}

/// The nodes of a list by their interfaces: it ends, after as many nodes as there are classes at most, and has no interface twice.
fn nodes(state: &State, set: &Set, class: u32) -> Result<BTreeMap<u32, u32>, String> {
    let mut found = BTreeMap::new();
    let mut node = state.area[head(set, class)];
    while node != 0 {
        let at = node as usize;
        if found.insert(state.area[at + 1], node).is_some() {
            return Err(format!("class {class}'s list has interface {} twice", state.area[at + 1]));
        }
        if found.len() > set.classes.len() {
            return Err(format!("class {class}'s list has more nodes than there are classes"));
        }
        node = state.area[at];
    }
    Ok(found)
}

/// A class asked for an interface again, on a copy and on one whose lists are empty.
struct Pair<'a> {
    classes: u32,
    slots: u32,
    again: Answer,
    afresh: Answer,
    kept: &'a State,
    bare: &'a State,
}

impl Pair<'_> {
    fn table(&self, answer: Answer, state: &State) -> Vec<u32> {
        state.area[answer.first as usize + 1..][..self.slots as usize].to_vec()
    }

    /// The class's list has this node.
    fn found(&self, before: &State, node: u32, told: Option<&u32>, is_own: bool, counts: &mut Counts) -> Result<(), String> {
        if self.again.refusal != 0 || self.again.first != node + 1 || self.kept != before {
            return Err(format!("the node at {node} is not what the ask answers"));
        }
        if self.again.second > self.classes {
            return Err("more nodes read than there are classes".to_owned());
        }
        let next = before.area[0] as usize;
        match self.afresh.refusal {
            0 if self.table(self.again, self.kept) == self.table(self.afresh, self.bare) => counts.hit("found again: as built afresh"),
            15 if before.area.len() < next + self.slots as usize + 2 => counts.hit("found again: no room to build another"),
            _ => return Err("the table kept is not the one built afresh".to_owned()),
        }
        let table: BTreeSet<u32> = self.table(self.again, self.kept).into_iter().collect();
        if table.range(generate::FIRST_STUB..generate::FIRST_STUB + 40).next().is_some() {
            counts.hit("found again: a stub in it");
        }
        if self.slots == 0 {
            counts.hit("found again: no slot in it");
        }
        if is_own {
            counts.hit("found again: a class as its own interface");
        }
        match told {
            Some(&place) if place != self.again.first => return Err(format!("an ask of the list answered place {place}")),
            Some(_) => counts.hit("found again: what an ask of the list answered"),
            None => return Err("a node that no ask of the list answered".to_owned()),
        }
        Ok(())
    }

    /// It has none for the interface: either ask builds, or is refused by the same row.
    fn missed(&self, before: &State, told: Option<&u32>, counts: &mut Counts) -> Result<(), String> {
        if told.is_some() {
            return Err("an ask of the list answered a table that is on the list no more".to_owned());
        }
        if self.again.refusal != self.afresh.refusal {
            return Err("refused otherwise on an empty list".to_owned());
        }
        match self.again.refusal {
            0 if self.again.second > self.classes || self.kept.area == before.area => {
                return Err("not put, or too many nodes read".to_owned());
            }
            0 if self.table(self.again, self.kept) != self.table(self.afresh, self.bare) => {
                return Err("another table on an empty list".to_owned());
            }
            0 => counts.hit("not there: built on either"),
            15 => counts.hit("not there: refused by 15"),
            16 => counts.hit("not there: refused by 16"),
            _ => {}
        }
        Ok(())
    }
}
