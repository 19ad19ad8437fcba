//! Lists of numbers of any content: a link or an ask by such a list does what it does by bytes where each signature is called by its number.
//! The other side makes a case's calls as the model does; beside it the oracle makes them on the sheets so renamed. Answers, areas, lists and all
//! class words but names must be the same.

use std::collections::{BTreeMap, BTreeSet};

use crate::case::{Call, Case};
use crate::compare::{State, Step, compare, perform};
use crate::generate;
use crate::model::Model;
use crate::oracle::{Oracle, numbers};
use crate::sheet::{MemberRecord, Set, class_word};
use crate::side::{Answer, Linker};

/// What a run must reach, beside a link and an ask accepted by a list of each kind.
const REACHED: [&str; 19] = [
    "link refused by 3, the list a word short",
    "ask refused by 3, the list a word short",
    "link accepted, a longer list",
    "link accepted, other than by bytes",
    "link refused, other than by bytes",
    "link accepted, by bytes refused",
    "link accepted that adds methods",
    "ask accepted, other than by bytes",
    "ask refused, other than by bytes",
    "filling amid the calls",
    "filling of two signatures with the same bytes in a row",
    "renamed: link accepted",
    "renamed: link accepted that adds methods",
    "renamed: link of kind 3 accepted",
    "renamed: link refused by 11",
    "renamed: link refused by 12",
    "renamed: ask accepted",
    "renamed: ask refused by 16",
    "not renamed",
];

/// Counts of calls by lists of any content.
pub struct NumberedCounts {
    pub calls: u64,
    buckets: BTreeMap<String, u64>,
}

impl Default for NumberedCounts {
    fn default() -> Self {
        let kinds = generate::NUMBERS.iter().flat_map(|kind| ["link", "ask"].map(|call| accepted(call, kind)));
        Self { calls: 0, buckets: kinds.chain(REACHED.map(str::to_owned)).map(|bucket| (bucket, 0)).collect() }
    }
}

fn accepted(call: &str, kind: &str) -> String {
    format!("{call} accepted by a list of {kind}")
}

impl NumberedCounts {
    fn hit(&mut self, bucket: &str, condition: bool) {
        *self.buckets.get_mut(bucket).expect("every bucket is listed") += u64::from(condition);
    }

    /// The summary, and whether every bucket was reached.
    pub fn summary(&self) -> (String, bool) {
        let line = |(bucket, count): (&String, &u64)| {
            format!("{count:>10}  numbers: {bucket}{}\n", if *count == 0 { "   NEVER REACHED" } else { "" })
        };
        let missed = self.buckets.values().filter(|count| **count == 0).count();
        let total = format!("{} calls by lists of any content, {} buckets, {missed} never reached", self.calls, self.buckets.len());
        (self.buckets.iter().map(line).collect::<String>() + &total, missed == 0)
    }

    fn observe(&mut self, step: &Step, kind: &str) {
        self.calls += 1;
        let (lent, refusal) = (step.before.numbers.len(), step.answer.refusal);
        let is_short = refusal == 3 && lent + 1 == numbers::WORDS;
        match step.call {
            Call::Link { .. } => {
                self.hit("link refused by 3, the list a word short", is_short);
                self.hit("link accepted, a longer list", refusal == 0 && lent > numbers::WORDS);
                self.hit("link accepted that adds methods", refusal == 0 && step.before.set[1] != step.after.set[1]);
                self.hit(&accepted("link", kind), refusal == 0);
            }
            Call::Ask { .. } => {
                self.hit("ask refused by 3, the list a word short", is_short);
                self.hit(&accepted("ask", kind), refusal == 0);
            }
            Call::Fill => {
                self.hit("filling amid the calls", refusal == 0);
                self.hit("filling of two signatures with the same bytes in a row", refusal == 0 && has_joined(&step.before.set));
            }
            Call::Missing { .. } => {}
        }
        if !(1..=5).contains(&refusal) {
            self.beside_bytes(step);
        }
    }

    /// Whether the same call by a filled list does something else.
    fn beside_bytes(&mut self, step: &Step) {
        let mut filled = State { numbers: numbers::filling_of(&step.before.set, &step.case.abi), ..step.before.clone() };
        let answer = perform(&mut Model, step.case, step.call, &mut filled);
        let differs = answer != step.answer || filled.area != step.after.area || filled.set != step.after.set;
        let refusal = step.answer.refusal;
        match step.call {
            Call::Link { .. } => {
                self.hit("link accepted, other than by bytes", differs && refusal == 0);
                self.hit("link refused, other than by bytes", differs && refusal != 0);
                self.hit("link accepted, by bytes refused", refusal == 0 && answer.refusal != 0);
            }
            Call::Ask { .. } => {
                self.hit("ask accepted, other than by bytes", differs && refusal == 0);
                self.hit("ask refused, other than by bytes", differs && refusal != 0);
            }
            _ => {}
        }
    }
}

/// Whether two methods have other signatures, though name and descriptor in a row are the same bytes.
fn has_joined(words: &[u32]) -> bool {
    let set = Set::decode(words).expect("an accepted set has its sections");
    let parts: BTreeSet<_> = set.methods.iter().map(|method| (set.part(method.name), set.part(method.descriptor))).collect();
    parts.iter().map(|(name, descriptor)| format!("{name}{descriptor}")).collect::<BTreeSet<_>>().len() < parts.len()
}

/// Makes a case's calls on the other side as on the model, and beside it on renamed sheets; what differs.
pub fn judge(oracle: &mut Oracle, other: &mut dyn Linker, case: &Case, kind: &str, counts: &mut NumberedCounts) -> Result<(), String> {
    let mut made = Vec::new();
    let compared = compare(oracle, other, case, &mut |step| {
        counts.observe(step, kind);
        made.push((step.call, step.answer, step.after.clone()));
    });
    compared.map_err(|disagreement| format!("call {}: {}", disagreement.call + 1, disagreement.difference))?;
    beside_renamed(oracle, case, &made, counts)
}

fn beside_renamed(oracle: &mut Oracle, case: &Case, made: &[(Call, Answer, State)], counts: &mut NumberedCounts) -> Result<(), String> {
    let Some([set, abi]) = numbers::renamed(&case.set, &case.abi, &case.numbers) else {
        counts.hit("not renamed", true);
        return Ok(());
    };
    let renamed = Case { set, abi, ..case.clone() };
    let mut state = State::of(&renamed);
    oracle.new_case(true);
    for (number, (call, answer, after)) in made.iter().enumerate() {
        // A filling goes by the new names; rows 14 and 15 by the room for them.
        let found = perform(oracle, &renamed, *call, &mut state);
        let is_room = |answer: Answer| matches!(answer.refusal, 14 | 15);
        if *call == Call::Fill || (found != *answer && (is_room(found) || is_room(*answer))) {
            return Ok(());
        }
        if found != *answer || differs(&state, after) {
            return Err(format!("call {}: {answer:?}, and with each signature called by its number {found:?}", number + 1));
        }
        observe_renamed(&renamed, *call, found, &state, counts);
    }
    Ok(())
}

fn observe_renamed(renamed: &Case, call: Call, answer: Answer, state: &State, counts: &mut NumberedCounts) {
    match (call, answer.refusal) {
        (Call::Link { class, .. }, 0) => {
            let set = Set::decode(&state.set).expect("an accepted set has its sections");
            let declared = Set::decode(&renamed.set).expect("renamed sheets have their sections").methods_of(class).len();
            counts.hit("renamed: link accepted", true);
            counts.hit("renamed: link accepted that adds methods", set.methods_of(class).len() != declared);
            counts.hit("renamed: link of kind 3 accepted", set.class(class).get(class_word::KIND) == 3);
        }
        (Call::Link { .. }, 11) => counts.hit("renamed: link refused by 11", true),
        (Call::Link { .. }, 12) => counts.hit("renamed: link refused by 12", true),
        (Call::Ask { .. }, 0) => counts.hit("renamed: ask accepted", true),
        (Call::Ask { .. }, 16) => counts.hit("renamed: ask refused by 16", true),
        _ => {}
    }
}

/// Whether two calls left other memory, the names of methods and the texts aside.
fn differs(renamed: &State, after: &State) -> bool {
    let lists = |state: &State| [state.area.clone(), state.missing.clone(), state.numbers.clone()];
    lists(renamed) != lists(after) || unnamed(&renamed.set) != unnamed(&after.set)
}

/// The sections of a set without what the methods are called and without its text, each field's name and descriptor beside it.
fn unnamed(words: &[u32]) -> Option<(Set, Vec<(String, String)>)> {
    let mut set = Set::decode(words)?;
    let called = |field: &MemberRecord| (set.part(field.name).to_owned(), set.part(field.descriptor).to_owned());
    let fields = set.fields.iter().map(called).collect();
    for record in set.methods.iter_mut().chain(&mut set.fields) {
        (record.name, record.descriptor) = ((0, 0), (0, 0));
    }
    set.text.clear();
    Some((set, fields))
}
