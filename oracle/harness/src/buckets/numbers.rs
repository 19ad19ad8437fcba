//! The buckets of the list of the signatures' numbers: what a filling meets, what a link leaves, and whom it tells apart later.

use std::collections::BTreeSet;

use crate::case::Call;
use crate::compare::Step;
use crate::model::number_signatures;
use crate::model::parts::{Member, eligible};
use crate::oracle::numbers::{WORDS, is_faithful};
use crate::sheet::{Abi, Set, class_word, class_word_at};

use super::{Bucket, Hits, View, hit};

/// The place of ABI slot 0.
const FIRST_SLOT: usize = 512;

/// A call that row 3 refuses, for the list alone or whatever later row would refuse the sheets.
pub fn short(step: &Step, hits: &mut Hits) {
    let lent = step.before.numbers.len();
    let is_numbered = !matches!(step.call, Call::Missing { .. });
    if step.answer.refusal != 3 || lent >= WORDS || !is_numbered {
        return;
    }
    match number_signatures(&step.before.set, &step.case.abi, &mut vec![0; WORDS]).map_err(|refused| refused.row) {
        Ok(()) => {
            hits.push(match step.call {
                Call::Link { .. } => Bucket::ShortLink,
                Call::Ask { .. } => Bucket::ShortAsk,
                _ => Bucket::ShortFill,
            });
            hit(hits, Bucket::ShortByOne, lent + 1 == WORDS);
        }
        Err(4) => hits.push(Bucket::ShortBefore4),
        Err(5) => hits.push(Bucket::ShortBefore5),
        Err(_) => {}
    }
}

/// An accepted filling.
pub fn filled(view: &View, hits: &mut Hits) {
    let (before, after) = (&view.step.before.numbers, &view.step.after.numbers);
    let (methods, slots) = (view.sheet.method_count() as usize, view.abi.words[1] as usize);
    let used = |place: usize| place < methods || (FIRST_SLOT..FIRST_SLOT + slots).contains(&place);
    let (of_methods, of_slots) = (&after[..methods], &after[FIRST_SLOT..FIRST_SLOT + slots]);
    let own = |numbers: &[u32], first: usize| numbers.iter().zip(first..).filter(|(number, place)| **number as usize == *place).count();
    hit(hits, Bucket::FillMethods, own(of_methods, 0) < methods);
    hit(hits, Bucket::FillBoth, of_slots.iter().any(|&number| (number as usize) < FIRST_SLOT));
    hit(hits, Bucket::FillSlots, own(of_slots, FIRST_SLOT) < of_slots.iter().filter(|&&number| number as usize >= FIRST_SLOT).count());
    hit(hits, Bucket::Fill512, methods == FIRST_SLOT);
    let owned: usize = view.sheet.classes().map(|class| class.method_count as usize).sum();
    hit(hits, Bucket::FillUnowned, owned < methods);
    hit(hits, Bucket::FillOver, (0..WORDS).any(|place| !used(place) && before[place] != 0));
    hit(hits, Bucket::FillLonger, before.len() > WORDS);
    hit(hits, Bucket::FillOnePart, has_one_part(view));
    let told = |(set, abi): (Set, Abi)| is_faithful(&set, &abi, before);
    let was_told = Set::decode(&view.step.before.set).zip(Abi::decode(&view.step.case.abi)).is_some_and(told);
    hit(hits, Bucket::FillAgain, was_told && (0..WORDS).any(|place| used(place) && before[place] != after[place]));
}

/// A name with two descriptors, and a descriptor with two names.
fn has_one_part(view: &View) -> bool {
    let (sheet, abi) = (&view.sheet, &view.abi);
    let part = |start: u32, length: u32| sheet.part(start, length);
    let parts = |method: Member| (part(method.name_start, method.name_length), part(method.descriptor_start, method.descriptor_length));
    let slots = abi.slots().map(|slot| (slot.name, slot.descriptor));
    let signatures: BTreeSet<(&[u8], &[u8])> = sheet.methods().map(parts).chain(slots).collect();
    let names: BTreeSet<&[u8]> = signatures.iter().map(|(name, _)| *name).collect();
    let descriptors: BTreeSet<&[u8]> = signatures.iter().map(|(_, descriptor)| *descriptor).collect();
    names.len() < signatures.len() && descriptors.len() < signatures.len()
}

/// An accepted link: the numbers of the methods that it added or copied.
pub fn linked(view: &View, class: u32, hits: &mut Hits) {
    let (before, after) = (&view.step.before.set, &view.step.after);
    let (methods, grown) = (before[1] as usize, after.set[1] as usize);
    if methods == grown {
        return;
    }
    let own = view.sheet.class(class).method_count as usize;
    let added = &after.numbers[methods + own..grown];
    hit(hits, Bucket::NumberCopied, own > 0);
    hit(hits, Bucket::NumberOfMethod, added.iter().any(|&number| (number as usize) < FIRST_SLOT));
    hit(hits, Bucket::NumberOfSlot, added.iter().any(|&number| number as usize >= FIRST_SLOT));
}

/// The numbers of the methods that this case's calls added to a class.
fn added(view: &View, class: u32) -> Vec<u32> {
    let declared = view.step.case.set[class_word_at(class, class_word::METHODS + 1)];
    view.sheet.methods_of(class).skip(declared as usize).map(|method| method.number).collect()
}

/// A link below a class whose list grew, of a class that declares a signature which an added method has.
pub fn below(view: &View, class: u32, hits: &mut Hits) {
    let above = view.sheet.chain(view.sheet.class(class).parent);
    let added: Vec<u32> = above.into_iter().flat_map(|class| added(view, class)).collect();
    let declares = view.sheet.methods_of(class).any(|method| eligible(&method) && added.contains(&method.number));
    hit(hits, Bucket::NumberBelow, declares);
}

/// An ask that a method of this class and number implements.
pub fn implemented(view: &View, class: u32, number: u32, hits: &mut Hits) {
    hit(hits, Bucket::NumberAsked, number as usize >= FIRST_SLOT && added(view, class).contains(&number));
}
