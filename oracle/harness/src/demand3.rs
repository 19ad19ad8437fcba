//! Demand 3, checked on the lists of calls that a run makes: no two known slots of a class's
//! table have one signature, unless the class is of kind 3; in a child without an ABI entry, each known slot of its parent's
//! table is known at the same index with the same signature, and its target is the parent's
//! or that of an eligible method of that signature which the child declares.

use std::collections::HashSet;

use crate::case::{Call, Case};
use crate::model::parts::{AbiRecord, AbiSheet, ClassSheet, Entry, eligible, entry_of, reading, text_of_abi_words, text_of_class_words};
use crate::oracle::numbers;
use crate::sheet::{class_word, class_word_at};
use crate::side::Answer;

/// A premise of demand 3.
#[derive(Clone, Copy, Debug, PartialEq, Eq)]
pub enum Premise {
    BuiltOrArray,
    NoInterface,
    Orderly,
    TargetsNonzero,
    TargetsDifferent,
    StubsNonzero,
    NoTargetIsAStub,
    ChildWithoutAbi,
}

pub const PREMISES: [(Premise, &str); 8] = [
    (Premise::BuiltOrArray, "only built and array classes in the chain"),
    (Premise::NoInterface, "none of them an interface"),
    (Premise::Orderly, "an orderly ABI sheet"),
    (Premise::TargetsNonzero, "the chain's targets nonzero"),
    (Premise::TargetsDifferent, "the chain's targets all different"),
    (Premise::StubsNonzero, "the stubs nonzero"),
    (Premise::NoTargetIsAStub, "no target of the chain a stub"),
    (Premise::ChildWithoutAbi, "a child without an ABI entry"),
];

/// What was judged; a run must reach each.
#[derive(Default)]
pub struct Demand3Counts {
    classes: u64,
    known_slots: u64,
    children: u64,
    overriding: u64,
    below_arrays: u64,
    under_abi: u64,
    known_by_abi: u64,
    beside_generated: u64,
    after_refusals: u64,
    packaged: u64,
    second_slots: u64,
}

impl Demand3Counts {
    fn lines(&self) -> [(u64, &'static str); 11] {
        [
            (self.classes, "demand 3: class judged"),
            (self.known_slots, "demand 3: known slot"),
            (self.children, "demand 3: child without an ABI entry"),
            (self.overriding, "demand 3: a child's target instead of the parent's"),
            (self.below_arrays, "demand 3: chain with an array class"),
            (self.under_abi, "demand 3: chain with fixed slots"),
            (self.known_by_abi, "demand 3: slot known by the ABI rule"),
            (self.beside_generated, "demand 3: a generated class linked in the list"),
            (self.after_refusals, "demand 3: a refused call in the list"),
            (self.packaged, "demand 3: chain of kind 3"),
            (self.second_slots, "demand 3: a second slot of one signature, in a chain of kind 3"),
        ]
    }

    /// The summary, and whether everything was reached.
    pub fn summary(&self) -> (String, bool) {
        let lines: Vec<String> = self.lines().iter().map(|(count, name)| format!("{count:>10}  {name}")).collect();
        (lines.join("\n"), self.lines().iter().all(|(count, _)| *count > 0))
    }
}

/// Judges a case by what its calls answered and by the area after the last of them. A premise
/// may be dropped, to see that it is needed.
pub fn judge(case: &Case, answers: &[Answer], area: &[u32], dropped: Option<Premise>, counts: &mut Demand3Counts) -> Result<(), String> {
    let linked: Vec<(u32, Answer)> = case
        .calls
        .iter()
        .zip(answers)
        .filter_map(|(call, answer)| match call {
            Call::Link { class, .. } if answer.refusal == 0 => Some((*class, *answer)),
            _ => None,
        })
        .collect();
    if linked.is_empty() || (1..=case.set[0]).any(|class| case.set[class_word_at(class, class_word::PLACE)] != 0) {
        return Ok(());
    }
    // The sheet at the list's start, but for the places and slot counts that were answered.
    let mut words = case.set.clone();
    for (class, answer) in &linked {
        let at = class_word_at(*class, class_word::PLACE);
        words[at..at + 2].copy_from_slice(&[answer.first, answer.second]);
    }
    let (text, abi_text) = (text_of_class_words(&words), text_of_abi_words(&case.abi));
    let numbers = numbers::filling_of(&words, &case.abi);
    let sheet = ClassSheet { words: &words, text: &text, numbers: &numbers };
    let abi = AbiSheet { words: &case.abi, text: &abi_text, numbers: &numbers };
    let stubs: HashSet<u32> = case.calls.iter().flat_map(|call| &case.stubs[call.stubs()]).copied().collect();
    for (class, _) in &linked {
        if premises(&sheet, &abi, &stubs, *class, dropped) {
            counts.classes += 1;
            counts.beside_generated += u64::from(linked.iter().any(|(class, _)| sheet.class(*class).kind == 1));
            counts.after_refusals += u64::from(answers.iter().any(|answer| answer.refusal != 0));
            conclusions(&sheet, &abi, area, *class, dropped, counts).map_err(|what| format!("demand 3 fails for class {class}: {what}"))?;
        }
    }
    Ok(())
}

/// "every class linked in the list whose parent chain, itself included, has only built and
/// array classes, none of them an interface, under an orderly ABI sheet, where the chain's
/// method targets and all stubs lent are nonzero, the targets all different and none of them
/// a stub"
fn premises(sheet: &ClassSheet, abi: &AbiSheet, stubs: &HashSet<u32>, class: u32, dropped: Option<Premise>) -> bool {
    let chain = sheet.chain(class);
    let targets: Vec<u32> = chain.iter().flat_map(|&class| sheet.methods_of(class)).map(|method| method.target).collect();
    let holds = |premise: Premise| match premise {
        Premise::BuiltOrArray => chain.iter().all(|&class| sheet.class(class).kind != 1),
        Premise::NoInterface => chain.iter().all(|&class| sheet.class(class).flags & 0x0200 == 0),
        Premise::Orderly => is_orderly(&fixed_slots(sheet, abi, &chain)),
        Premise::TargetsNonzero => !targets.contains(&0),
        Premise::TargetsDifferent => targets.iter().collect::<HashSet<_>>().len() == targets.len(),
        Premise::StubsNonzero => !stubs.contains(&0),
        Premise::NoTargetIsAStub => targets.iter().all(|target| !stubs.contains(target)),
        Premise::ChildWithoutAbi => true,
    };
    PREMISES.iter().all(|&(premise, _)| dropped == Some(premise) || holds(premise))
}

fn fixed_slots<'a>(sheet: &ClassSheet, abi: &AbiSheet<'a>, chain: &[u32]) -> Vec<AbiRecord<'a>> {
    let entries = chain.iter().filter_map(|&class| abi.class_named(sheet.name(class)));
    entries.flat_map(|entry| abi.slots_of(entry)).collect()
}

/// "each signature (name and descriptor) has one index and each index one signature"
fn is_orderly(slots: &[AbiRecord]) -> bool {
    let agree =
        |one: &AbiRecord, other: &AbiRecord| (one.index == other.index) == (one.name == other.name && one.descriptor == other.descriptor);
    slots.iter().all(|one| slots.iter().all(|other| agree(one, other)))
}

fn conclusions(
    sheet: &ClassSheet,
    abi: &AbiSheet,
    area: &[u32],
    class: u32,
    dropped: Option<Premise>,
    counts: &mut Demand3Counts,
) -> Result<(), String> {
    let signature = |entry: &Entry| entry.method.map(|method| (method.name.to_vec(), method.descriptor.to_vec()));
    let table = reading(sheet, abi, area, class);
    let mut seen = HashSet::new();
    let is_packaged = sheet.class(class).kind == 3;
    counts.packaged += u64::from(is_packaged);
    for (index, entry) in table.iter().enumerate() {
        if let Some(known) = signature(entry) {
            counts.known_slots += 1;
            counts.known_by_abi += u64::from(entry.method.is_some_and(|method| method.target != entry.target));
            let is_second = !seen.insert(known);
            counts.second_slots += u64::from(is_second && is_packaged);
            if is_second && !is_packaged {
                return Err(format!("slot {index} has the signature of another"));
            }
        }
    }
    let chain = sheet.chain(class);
    counts.below_arrays += u64::from(chain[1..].iter().any(|&class| sheet.class(class).kind == 2));
    counts.under_abi += u64::from(!fixed_slots(sheet, abi, &chain).is_empty());
    let parent = sheet.class(class).parent;
    let has_entry = abi.class_named(sheet.name(class)).is_some();
    if parent == 0 || (has_entry && dropped != Some(Premise::ChildWithoutAbi)) {
        return Ok(());
    }
    counts.children += 1;
    for (index, inherited) in reading(sheet, abi, area, parent).iter().enumerate().filter(|(_, entry)| entry.method.is_some()) {
        let Some(entry) = table.get(index).filter(|entry| signature(entry) == signature(inherited)) else {
            return Err(format!("the parent's slot {index} is lost"));
        };
        let declared = sheet
            .methods_of(class)
            .filter(eligible)
            .any(|method| method.target == entry.target && signature(inherited) == signature(&entry_of(method)));
        counts.overriding += u64::from(entry.target != inherited.target);
        if entry.target != inherited.target && !declared {
            return Err(format!("slot {index} has a foreign target"));
        }
    }
    Ok(())
}
