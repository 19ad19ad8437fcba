//! Classes of kind 3, linked by packages: the comparison of the harness's own judge with the other side, and what is reached. The Rust
//! judges none of these links; it links the same classes as kind 0 where both rules must give one table.

use std::collections::BTreeMap;

use crate::case::{Call, Case};
use crate::compare::{State, Step, perform};
use crate::model::parts::{
    AbiSheet, ClassSheet, Method, eligible, introducing, is_counted, overridden, package, reading, text_of_abi_words, text_of_class_words,
};
use crate::oracle::Oracle;
use crate::sheet::{class_word, class_word_at};
use crate::side::Answer;

const PRIVATE: u32 = 0x0002;
const STATIC: u32 = 0x0008;
const OPEN: u32 = 0x0005;

/// What a call is about; a run must reach each.
const BUCKETS: &[&str] = &[
    "kind 3 linked",
    "kind 3 linked after an ask",
    "kind 3 linked with static fields",
    "kind 3 linked with instance fields",
    "kind 3 linked with a compiler table, ignored",
    "kind 3 linked over a table made by hand",
    "kind 3 linked under a chain of 7",
    "kind 3: a new last slot",
    "kind 3: an inherited slot taken",
    "kind 3: several inherited slots taken by one method",
    "kind 3: two methods take one slot",
    "kind 3: a slot taken through m3",
    "kind 3: not through a static m3",
    "kind 3: not through a private m3",
    "kind 3: a slot whose present method is not overridden",
    "kind 3: a slot whose present method alone is overridden",
    "kind 3: a package-private method of another package left",
    "kind 3: an introducing method marked private and public or protected",
    "kind 3: a slot without an introducing method",
    "kind 3: a topmost class that is not the first up the chain with so many slots",
    "kind 3: a second slot of one signature",
    "kind 3: one signature declared twice, two new slots",
    "kind 3: the empty package",
    "kind 3: a package in another",
    "kind 3 asked for an interface's table",
    "kind 3 asked as the interface",
    "kind 3 refused by row 6",
    "kind 3 refused by row 7",
    "kind 3 refused by row 10",
    "kind 3 refused by row 15",
    "row 26: an ABI entry of the class",
    "row 26: an ABI entry of an ancestor",
    "row 26: the class an interface",
    "row 26: an ancestor an interface",
    "row 26: kind 0 above kind 3",
    "row 26: kind 1 above kind 3",
    "row 26: kind 2 above kind 3",
    "row 26: kind 3 above kind 0",
    "row 26: kind 3 above kind 1",
    "row 26: kind 3 above kind 2",
    "row 26 before row 8",
    "row 26 before row 10",
    "row 26 before row 15",
    "missing: kind 3, a slot that took a stub counts",
    "missing: kind 3, a copy of a slot that counts",
    "missing: kind 3, an own method over a slot that counts",
    "as kind 0: class judged",
    "as kind 0: a slot taken",
    "as kind 0: chain of 4 or more",
];

/// Counts of calls of kind 3.
pub struct PackageCounts {
    /// The calls that rows 3 to 5 let pass, of a class with kind 3 in its chain or, an ask, of such an interface.
    pub calls: u64,
    buckets: BTreeMap<&'static str, u64>,
}

impl Default for PackageCounts {
    fn default() -> Self {
        Self { calls: 0, buckets: BUCKETS.iter().map(|bucket| (*bucket, 0)).collect() }
    }
}

impl PackageCounts {
    /// How many buckets there are.
    pub const BUCKETS: usize = BUCKETS.len();

    fn hit(&mut self, bucket: &str, condition: bool) {
        *self.buckets.get_mut(bucket).expect("every bucket is listed") += u64::from(condition);
    }

    /// The names of what was reached.
    pub fn reached(&self) -> Vec<&'static str> {
        BUCKETS.iter().copied().filter(|bucket| self.buckets[bucket] > 0).collect()
    }

    /// The summary, and whether every bucket was reached.
    pub fn summary(&self) -> (String, bool) {
        let line = |bucket: &&str| {
            let count = self.buckets[*bucket];
            format!("{count:>10}  {bucket}{}\n", if count == 0 { "   NEVER REACHED" } else { "" })
        };
        let missed = BUCKETS.iter().filter(|bucket| self.buckets[*bucket] == 0).count();
        let total = format!("{} calls of kind 3, {} buckets, {missed} never reached", self.calls, BUCKETS.len());
        (BUCKETS.iter().map(line).collect::<String>() + &total, missed == 0)
    }

    /// Counts a step.
    pub fn observe(&mut self, step: &Step) {
        let refusal = step.answer.refusal;
        if (1..=5).contains(&refusal) {
            return;
        }
        let (text, abi_text) = (text_of_class_words(&step.before.set), text_of_abi_words(&step.case.abi));
        let view = View {
            step,
            sheet: ClassSheet { words: &step.before.set, text: &text, numbers: &step.before.numbers },
            abi: AbiSheet { words: &step.case.abi, text: &abi_text, numbers: &step.before.numbers },
        };
        self.calls += u64::from(view.is_of_packages());
        let count = view.sheet.class_count();
        match step.call {
            Call::Link { class, .. } if (1..=count).contains(&class) => view.link(class, self),
            Call::Ask { class, interface, .. } if refusal == 0 => {
                self.hit("kind 3 asked for an interface's table", view.sheet.class(class).kind == 3);
                self.hit("kind 3 asked as the interface", view.sheet.class(interface).kind == 3);
            }
            _ => {}
        }
    }
}

/// A step with both sheets read.
struct View<'a> {
    step: &'a Step<'a>,
    sheet: ClassSheet<'a>,
    abi: AbiSheet<'a>,
}

impl View<'_> {
    /// Whether the call is one that the Rust does not get: kind 3 is in the class's chain or, at an ask, in the interface's.
    fn is_of_packages(&self) -> bool {
        let has_packages = |class: u32| {
            (1..=self.sheet.class_count()).contains(&class)
                && self.sheet.chain(class).iter().any(|&class| self.sheet.class(class).kind == 3)
        };
        match self.step.call {
            Call::Link { class, .. } | Call::Missing { class } => has_packages(class),
            Call::Fill => false,
            Call::Ask { class, interface, .. } => has_packages(class) || has_packages(interface),
        }
    }

    fn link(&self, class: u32, counts: &mut PackageCounts) {
        let is_packaged = self.sheet.class(class).kind == 3;
        match self.step.answer.refusal {
            0 if is_packaged => {
                self.linked(class, counts);
                self.slots(class, counts);
                self.missing(class, counts);
            }
            26 => self.row_26(class, counts),
            row @ (6 | 7 | 10 | 15) if is_packaged => counts.hit(&format!("kind 3 refused by row {row}"), true),
            _ => {}
        }
    }

    fn linked(&self, class: u32, counts: &mut PackageCounts) {
        let (sheet, step) = (&self.sheet, self.step);
        let (record, chain) = (sheet.class(class), sheet.chain(class));
        let names: Vec<&[u8]> = chain.iter().map(|&class| package(sheet.name(class))).collect();
        let asked = |class: &u32| {
            let record = sheet.class(*class);
            step.before.area[(record.place + record.slots) as usize + 1] != 0
        };
        counts.hit("kind 3 linked", true);
        counts.hit("kind 3 linked after an ask", chain[1..].iter().any(|class| sheet.is_linked(*class) && asked(class)));
        counts.hit("kind 3 linked with static fields", step.after.set[class_word_at(class, class_word::STATIC_WORDS)] != 0);
        counts.hit("kind 3 linked with instance fields", sheet.fields_of(class).any(|field| !field.is_static()));
        counts.hit("kind 3 linked with a compiler table, ignored", record.compiler_slots != 0);
        counts.hit(
            "kind 3 linked over a table made by hand",
            chain[1..].iter().any(|&class| step.case.set[class_word_at(class, class_word::PLACE)] != 0),
        );
        counts.hit("kind 3 linked under a chain of 7", chain.len() == 8);
        counts.hit("kind 3: the empty package", names[0].is_empty() && chain.len() > 1);
        counts.hit(
            "kind 3: a package in another",
            names[1..].iter().any(|name| !name.is_empty() && names[0].starts_with(name) && names[0] != *name),
        );
    }

    /// Which of its slots count as missing.
    fn missing(&self, class: u32, counts: &mut PackageCounts) {
        let (step, parent) = (self.step, self.sheet.class(class).parent);
        let parent_slots = if parent == 0 { 0 } else { self.sheet.class(parent).slots as usize };
        let counted = |slot: usize| is_counted(&step.after.missing, class, slot);
        let above = |slot: usize| slot < parent_slots && is_counted(&step.before.missing, parent, slot);
        let slots = 0..step.answer.second as usize;
        counts.hit("missing: kind 3, a slot that took a stub counts", slots.clone().any(|slot| counted(slot) && !above(slot)));
        counts.hit("missing: kind 3, a copy of a slot that counts", slots.clone().any(|slot| counted(slot) && above(slot)));
        counts.hit("missing: kind 3, an own method over a slot that counts", slots.clone().any(|slot| !counted(slot) && above(slot)));
    }

    /// What the class's methods do to the inherited slots.
    fn slots(&self, class: u32, counts: &mut PackageCounts) {
        let (sheet, abi, area) = (&self.sheet, &self.abi, &self.step.before.area);
        let parent = sheet.class(class).parent;
        let (introducing, present) = match parent {
            0 => (Vec::new(), Vec::new()),
            _ => (introducing(sheet, abi, area, parent), reading(sheet, abi, area, parent)),
        };
        let mut takers = vec![0; introducing.len()];
        let mut new: Vec<Method> = Vec::new();
        for method in sheet.methods_of(class).filter(eligible) {
            let overridden = overridden(sheet, &method);
            let known = |slot: usize| introducing[slot].filter(|introducing| introducing.number == method.number);
            let is_taken = |slot: &usize| introducing[*slot].is_some_and(|introducing| overridden.contains(&introducing));
            let taken: Vec<usize> = (0..introducing.len()).filter(is_taken).collect();
            counts.hit("kind 3: a new last slot", taken.is_empty());
            counts.hit("kind 3: an inherited slot taken", !taken.is_empty());
            counts.hit("kind 3: several inherited slots taken by one method", taken.len() > 1);
            counts.hit(
                "kind 3: one signature declared twice, two new slots",
                taken.is_empty() && new.iter().any(|one| one.number == method.number),
            );
            counts.hit(
                "kind 3: a second slot of one signature",
                taken.is_empty() && (0..introducing.len()).any(|slot| known(slot).is_some()),
            );
            for (slot, takers) in takers.iter_mut().enumerate() {
                let is_taken = taken.contains(&slot);
                *takers += u32::from(is_taken);
                let Some(introducing) = known(slot) else { continue };
                self.passed(&method, &introducing, is_taken, counts);
                let holds = present[slot].method.is_some_and(|present| overridden.contains(&present));
                counts.hit("kind 3: a slot whose present method is not overridden", is_taken && !holds);
                counts.hit("kind 3: a slot whose present method alone is overridden", !is_taken && holds);
            }
            if taken.is_empty() {
                new.push(method);
            }
        }
        counts.hit("kind 3: two methods take one slot", takers.iter().any(|&count| count > 1));
        counts.hit("kind 3: a slot without an introducing method", introducing.iter().any(Option::is_none));
        let lengths: Vec<u32> =
            sheet.chain(parent).into_iter().map(|class| if sheet.is_linked(class) { sheet.class(class).slots } else { 0 }).collect();
        let is_late = |slot: u32| lengths.iter().skip_while(|&&length| length > slot).any(|&length| length > slot);
        counts.hit(
            "kind 3: a topmost class that is not the first up the chain with so many slots",
            (0..introducing.len() as u32).any(is_late),
        );
    }

    /// How a method does or does not override one of its signature.
    fn passed(&self, own: &Method, above: &Method, is_taken: bool, counts: &mut PackageCounts) {
        let sheet = &self.sheet;
        let is_near = |one: &Method, other: &Method| package(sheet.name(one.owner)) == package(sheet.name(other.owner));
        let is_open = |one: &Method, other: &Method| other.flags & OPEN != 0 || (other.flags & PRIVATE == 0 && is_near(one, other));
        let is_at_once = above.flags & STATIC == 0 && is_open(own, above);
        // A method between that would lead there, were it neither static nor private.
        let between = sheet.chain(own.owner).into_iter().filter(|&class| class != own.owner && class > above.owner);
        let between: Vec<Method> = between.flat_map(|class| sheet.methods_of(class)).filter(|m3| m3.number == own.number).collect();
        let leads = |m3: &Method| m3.flags & OPEN != 0 && above.flags & (STATIC | PRIVATE) == 0 && is_near(m3, above);
        counts.hit("kind 3: a slot taken through m3", is_taken && !is_at_once);
        counts.hit("kind 3: not through a static m3", !is_taken && between.iter().any(|m3| m3.flags & STATIC != 0 && leads(m3)));
        counts.hit(
            "kind 3: not through a private m3",
            !is_taken && between.iter().any(|m3| m3.flags & (PRIVATE | STATIC) == PRIVATE && leads(m3)),
        );
        counts.hit("kind 3: a package-private method of another package left", !is_taken && above.flags & (OPEN | PRIVATE | STATIC) == 0);
        counts.hit("kind 3: an introducing method marked private and public or protected", is_taken && above.flags & PRIVATE != 0);
    }

    fn row_26(&self, class: u32, counts: &mut PackageCounts) {
        let (sheet, step) = (&self.sheet, self.step);
        let (record, chain) = (sheet.class(class), sheet.chain(class));
        let has_entry = |class: &u32| self.abi.class_named(sheet.name(*class)).is_some();
        let is_interface = |class: &u32| sheet.class(*class).flags & 0x0200 != 0;
        let of_kind = |kind: u32| chain[1..].iter().any(|&class| sheet.class(class).kind == kind);
        if record.kind == 3 {
            counts.hit("row 26: an ABI entry of the class", has_entry(&class));
            counts.hit("row 26: an ABI entry of an ancestor", chain[1..].iter().any(has_entry));
            counts.hit("row 26: the class an interface", is_interface(&class));
            counts.hit("row 26: an ancestor an interface", chain[1..].iter().any(is_interface));
            (0..3).for_each(|kind| counts.hit(&format!("row 26: kind {kind} above kind 3"), of_kind(kind)));
        } else {
            counts.hit(&format!("row 26: kind 3 above kind {}", record.kind), true);
        }
        let own: u32 = sheet
            .fields_of(class)
            .filter(|field| !field.is_static())
            .map(|field| if matches!(field.descriptor, b"J" | b"D") { 2 } else { 1 })
            .sum();
        let start = if record.parent == 0 { 0 } else { sheet.class(record.parent).instance_words };
        counts.hit("row 26 before row 8", record.kind == 1 && own > record.instance_words);
        counts.hit("row 26 before row 10", record.kind != 1 && start + own > 65535);
        counts.hit(
            "row 26 before row 15",
            step.case.stubs[step.call.stubs()].is_empty() && sheet.methods_of(class).any(|method| eligible(&method)),
        );
    }
}

/// "A kind 3 chain linked as in demand 3 gets the same slots as kind 0 throughout, where both links are accepted, every eligible method is
/// public, no class declares a signature twice, and targets and stubs are as the old claim needs them": the same calls with each kind 3
/// written as 0, linked by the Rust.
pub fn as_kind_0(oracle: &mut Oracle, case: &Case, answers: &[Answer], area: &[u32], counts: &mut PackageCounts) -> Result<(), String> {
    let classes = 1..=case.set[0];
    let words = |word: usize| classes.clone().map(move |class| case.set[class_word_at(class, word)]);
    if words(class_word::PLACE).any(|place| place != 0)
        || !words(class_word::KIND).any(|kind| kind == 3)
        || answers.iter().any(|answer| (1..=5).contains(&answer.refusal))
    {
        return Ok(());
    }
    let mut zero = case.clone();
    for class in classes.clone() {
        let kind = &mut zero.set[class_word_at(class, class_word::KIND)];
        *kind = if *kind == 3 { 0 } else { *kind };
    }
    oracle.new_case(false);
    let mut state = State::of(&zero);
    let beside: Vec<Answer> = zero.calls.iter().map(|&call| perform(oracle, &zero, call, &mut state)).collect();
    let text = text_of_class_words(&case.set);
    let sheet = ClassSheet { words: &case.set, text: &text, numbers: &case.numbers };
    for (place, call) in case.calls.iter().enumerate() {
        let Call::Link { class, .. } = *call else { continue };
        let zero = zero
            .calls
            .iter()
            .zip(&beside)
            .find(|(call, answer)| matches!(call, Call::Link { class: other, .. } if *other == class) && answer.refusal == 0);
        let (0, Some((_, zero))) = (answers[place].refusal, zero) else { continue };
        if !is_open(&sheet, class) {
            continue;
        }
        let table = |area: &[u32], answer: &Answer| area[answer.first as usize + 1..][..answer.second as usize].to_vec();
        let (found, expected) = (table(area, &answers[place]), table(&state.area, zero));
        if found != expected {
            return Err(format!("class {class} gets the slots {found:?}, and as kind 0 {expected:?}"));
        }
        let chain = sheet.chain(class);
        counts.hit("as kind 0: class judged", true);
        counts
            .hit("as kind 0: a slot taken", found.len() < chain.iter().flat_map(|&class| sheet.methods_of(class)).filter(eligible).count());
        counts.hit("as kind 0: chain of 4 or more", chain.len() >= 4);
    }
    Ok(())
}

/// The claim's premises, but for the links: all of kind 3, eligible methods public or protected, none twice in a class, targets nonzero and different.
fn is_open(sheet: &ClassSheet, class: u32) -> bool {
    let chain = sheet.chain(class);
    let methods: Vec<Method> = chain.iter().flat_map(|&class| sheet.methods_of(class)).collect();
    let is_single = |place: usize| methods[..place].iter().all(|one| one.target != methods[place].target);
    let is_once = |place: usize| {
        let method = &methods[place];
        let twin =
            |one: &&Method| one.owner == method.owner && eligible(one) && (one.name, one.descriptor) == (method.name, method.descriptor);
        !eligible(method) || (method.flags & OPEN != 0 && !methods[..place].iter().any(|one| twin(&one)))
    };
    let is_right = |place: usize| methods[place].target != 0 && is_single(place) && is_once(place);
    chain.iter().all(|&class| sheet.class(class).kind == 3) && (0..methods.len()).all(is_right)
}
