//! The rule before two inherited signatures on one fixed slot were told apart, against today's: each list of calls is made by the model of the rule before and by a
//! side of today's, each on its own memory, and each difference must be one that the request allows: "Old answers that change: links and asks naming ABI classes
//! where entries of two signatures had one index, at most their descendants too, and elsewhere only through places, room and nodes read."

use std::collections::{BTreeMap, BTreeSet};
use std::time::Instant;

use crate::case::{Call, Case};
use crate::compare::{State, perform};
use crate::generate;
use crate::model::{self, Model};
use crate::sheet::{Set, class_word};
use crate::side::{Answer, Linker, SheetsMut};

/// What is counted, each of which must be reached.
const REACHED: [&str; 14] = [
    "calls",
    "links that clash",
    "naming: answers differ",
    "below: answers differ",
    "elsewhere: the same",
    "elsewhere: another place",
    "elsewhere: other nodes read",
    "elsewhere: room, row 15",
    "elsewhere: room, row 6 or words",
    "row 11 where 12 refused",
    "row 11 where none refused",
    "row 11 in a class that clashes",
    "row 11 in a descendant",
    "row 12 in a descendant where 12 did not refuse",
];

#[derive(Default)]
struct Counts(BTreeMap<&'static str, u64>);

impl Counts {
    fn hit(&mut self, what: &'static str) {
        *self.0.entry(what).or_default() += 1;
    }
}

/// The model by the rule before; what it links counts as the model's.
struct Before;

/// One call, made by both.
struct Step {
    call: Call,
    old: Answer,
    new: Answer,
    old_state: State,
    new_state: State,
    /// The state that each was lent.
    new_before: State,
    old_before: State,
}

impl Before {
    fn perform(case: &Case, call: Call, state: &mut State) -> Answer {
        match call {
            Call::Link { class, stubs } => {
                let State { set, numbers, area, missing } = state;
                let linked = model::link_before(SheetsMut { set, abi: &case.abi, numbers }, class, area, &case.stubs[stubs], missing);
                linked.map_or_else(|refused| Answer::refused(refused.row), |(place, slots)| Answer::accepted(place, slots))
            }
            _ => perform(&mut Model, case, call, state),
        }
    }
}

/// At least `count` calls; true if each difference is allowed and everything is reached.
pub fn run(seed: u64, count: u64, other: &mut dyn Linker) -> bool {
    let start = Instant::now();
    let mut counts = Counts::default();
    let mut number = 0;
    while counts.0.get("calls").is_none_or(|&calls| calls < count) {
        let case = generate::clashing(seed, number);
        if let Err(message) = judge(&case, other, &mut counts) {
            println!("seed {seed}, case {number}: {message}\n{case}");
            return false;
        }
        number += 1;
    }
    for what in REACHED {
        let times = counts.0.get(what).copied().unwrap_or_default();
        println!("{times:>10}  {what}{}", if times == 0 { "   NEVER REACHED" } else { "" });
    }
    println!("seed {seed}: {number} lists in {:.1} s, each difference allowed", start.elapsed().as_secs_f64());
    REACHED.iter().all(|what| counts.0.contains_key(what))
}

fn judge(case: &Case, other: &mut dyn Linker, counts: &mut Counts) -> Result<(), String> {
    let (mut old_state, mut new_state) = (State::of(case), State::of(case));
    let filled = (Before::perform(case, Call::Fill, &mut old_state), perform(other, case, Call::Fill, &mut new_state));
    if filled.0 != filled.1 || old_state != new_state {
        return Err(format!("the list of numbers is filled otherwise: {filled:?}"));
    }
    let mut steps = Vec::new();
    for &call in &case.calls {
        let (old_before, new_before) = (old_state.clone(), new_state.clone());
        let old = Before::perform(case, call, &mut old_state);
        let new = perform(other, case, call, &mut new_state);
        steps.push(Step { call, old, new, old_state: old_state.clone(), new_state: new_state.clone(), new_before, old_before });
    }
    let mut told = Told::new(case, &steps, counts);
    for (number, step) in steps.iter().enumerate() {
        counts.hit("calls");
        told.step(step, counts).map_err(|message| format!("call {}: {message}; before {:?}, now {:?}", number + 1, step.old, step.new))?;
    }
    Ok(())
}

/// Names and descriptors.
type Signatures = Vec<(Vec<u8>, Vec<u8>)>;

/// The classes of a list, by what it is about.
struct Told {
    set: Set,
    /// Classes whose link clashes in either run, with the signatures that move there in today's.
    clashing: BTreeMap<u32, Signatures>,
    /// Classes elsewhere whose link met a difference of room.
    short: BTreeSet<u32>,
}

impl Told {
    fn new(case: &Case, steps: &[Step], counts: &mut Counts) -> Self {
        let mut clashing: BTreeMap<u32, Signatures> = BTreeMap::new();
        for step in steps {
            let Call::Link { class, .. } = step.call else { continue };
            let is_clash = |state: &State| model::link_clashes(state.sheets(&case.abi), class, &state.area);
            if is_clash(&step.new_before) || is_clash(&step.old_before) {
                counts.hit("links that clash");
                let before = &step.new_before;
                clashing.entry(class).or_default().extend(model::moved(before.sheets(&case.abi), class, &before.area));
            }
        }
        Self { set: Set::decode(&case.set).expect("the class words have their sections"), clashing, short: BTreeSet::new() }
    }

    /// A class and its ancestors.
    fn chain(&self, class: u32) -> impl Iterator<Item = u32> {
        let inside = |class: u32| class != 0 && class as usize <= self.set.classes.len();
        let parent = move |&class: &u32| Some(self.set.class(class).get(class_word::PARENT)).filter(|&parent| inside(parent));
        std::iter::successors(Some(class).filter(|&class| inside(class)), parent)
    }

    fn step(&mut self, step: &Step, counts: &mut Counts) -> Result<(), String> {
        let named = match step.call {
            Call::Link { class, .. } | Call::Missing { class } => vec![class],
            Call::Fill => Vec::new(),
            Call::Ask { class, interface, .. } => vec![class, interface],
        };
        let names = named.iter().any(|class| self.clashing.contains_key(class));
        let is_below = named.iter().any(|&class| self.chain(class).any(|above| self.clashing.contains_key(&above)));
        if matches!(step.call, Call::Link { .. }) && step.new.refusal == 11 && !matches!(step.old.refusal, 6 | 11) {
            self.eleven(named[0], step, counts)?;
        }
        if !is_below {
            return self.elsewhere(step, &named, counts);
        }
        if names && differs(step) {
            counts.hit("naming: answers differ");
        } else if !names && differs(step) {
            counts.hit("below: answers differ");
        }
        if step.new.refusal == 12 && step.old.refusal != 12 && !names {
            counts.hit("row 12 in a descendant where 12 did not refuse");
        }
        Ok(())
    }

    /// Row 11 where it did not refuse: the class redeclares a signature that moved in it or above it. (Where 6 refused, since the parent was
    /// refused, the class comes to its table for the first time, and 11 may be document 01's own: docs/DECISIONS.md.)
    fn eleven(&self, class: u32, step: &Step, counts: &mut Counts) -> Result<(), String> {
        let moved = |name: &[u8], descriptor: &[u8]| {
            let mut moves = self.chain(class).filter_map(|above| self.clashing.get(&above)).flatten();
            moves.any(|(moved_name, moved_descriptor)| moved_name == name && moved_descriptor == descriptor)
        };
        if !model::declares(&step.new_before.set, &step.new_before.numbers, class, &moved) {
            return Err("row 11 of a class that redeclares no moved signature".to_owned());
        }
        match step.old.refusal {
            12 => counts.hit("row 11 where 12 refused"),
            0 => counts.hit("row 11 where none refused"),
            _ => {}
        }
        counts.hit(if self.clashing.contains_key(&class) { "row 11 in a class that clashes" } else { "row 11 in a descendant" });
        Ok(())
    }

    /// A call that names no class that clashes and none below one.
    fn elsewhere(&mut self, step: &Step, named: &[u32], counts: &mut Counts) -> Result<(), String> {
        let is_room = |answer: Answer| matches!(answer.refusal, 14 | 15);
        let is_short = named.iter().any(|&class| self.chain(class).any(|above| self.short.contains(&above)));
        if differs(step) {
            match (is_room(step.old) || is_room(step.new), is_short) {
                (true, _) => counts.hit("elsewhere: room, row 15"),
                (false, true) => counts.hit("elsewhere: room, row 6 or words"),
                _ => return Err("an answer elsewhere differs".to_owned()),
            }
            if let Call::Link { class, .. } = step.call {
                self.short.insert(class);
            }
            return Ok(());
        }
        counts.hit("elsewhere: the same");
        if step.old.refusal == 0 && step.old.first != step.new.first {
            counts.hit("elsewhere: another place");
        }
        if matches!(step.call, Call::Ask { .. }) && step.old.second != step.new.second {
            counts.hit("elsewhere: other nodes read");
        }
        Ok(())
    }
}

/// Whether the two answer otherwise, places and nodes read aside: the refusal, whether words are taken, or slots and their words.
fn differs(step: &Step) -> bool {
    let takes = |before: &State, after: &State| before.area.first() != after.area.first();
    let slots = |answer: Answer, state: &State| match step.call {
        Call::Link { .. } => answer.second,
        Call::Ask { interface, .. } => Set::decode(&state.set).expect("the set is valid").class(interface).get(class_word::SLOTS),
        Call::Missing { .. } | Call::Fill => 0,
    };
    let words = |answer: Answer, state: &State| {
        let from = answer.first as usize + 1;
        state.area[from..from + slots(answer, state) as usize].to_vec()
    };
    step.old.refusal != step.new.refusal
        || takes(&step.old_before, &step.old_state) != takes(&step.new_before, &step.new_state)
        || (step.old.refusal == 0 && words(step.old, &step.old_state) != words(step.new, &step.new_state))
}
