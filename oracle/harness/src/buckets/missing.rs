//! The buckets of missing slots: what a link counts, and what a question for a count meets.

use crate::model::parts::is_counted;

use super::{Bucket, Hits, View, hit};

/// The list's words of a class.
const WORDS: usize = 33;

/// What an accepted link counts. A slot that holds its own stub word is taken for one that took it.
pub fn counted(view: &View, class: u32, hits: &mut Hits) {
    let (record, step) = (view.sheet.class(class), view.step);
    let (place, slots) = (step.answer.first as usize, step.answer.second as usize);
    let table = &step.after.area[place + 1..][..slots];
    let counts = |slot: usize| is_counted(&step.after.missing, class, slot);
    let above = |slot: usize| record.parent != 0 && is_counted(&step.before.missing, record.parent, slot);
    let is_stub = |slot: usize| table[slot] == view.stubs[slot];
    let count = step.after.missing[WORDS * (class as usize - 1)] as usize;
    hit(hits, Bucket::MissingNone, slots > 0 && count == 0);
    hit(hits, Bucket::MissingSome, 0 < count && count < slots);
    hit(hits, Bucket::MissingAll, slots > 0 && count == slots);
    hit(hits, Bucket::MissingStub, (0..slots).any(|slot| counts(slot) && is_stub(slot)));
    hit(hits, Bucket::MissingCopy, (0..slots).any(|slot| counts(slot) && !is_stub(slot)));
    hit(hits, Bucket::MissingSecondWord, (32..slots).any(counts));
    hit(hits, Bucket::MissingLastBit, slots == 1024 && counts(1023));
    hit(hits, Bucket::MissingArray, record.kind == 2 && count > 0);
    let own_words = |missing: &[u32]| missing[WORDS * (class as usize - 1)..][..WORDS].to_vec();
    hit(hits, Bucket::MissingCleared, own_words(&step.before.missing)[1 + slots.div_ceil(32)..].iter().any(|&word| word != 0));
    hit(hits, Bucket::MissingLonger, step.before.missing.len() > WORDS * view.sheet.class_count() as usize);
    match view.sheet.compiler_table_of(class).filter(|_| record.kind == 1) {
        Some(compiled) => by_compiler(view, class, compiled, hits),
        None if record.kind == 2 || record.flags & 0x0200 != 0 => {}
        None => {
            let parent_slots = if record.parent == 0 { 0 } else { view.sheet.class(record.parent).slots as usize };
            let has_entry = view.abi.class_named(view.sheet.name(class)).is_some();
            let both = parent_slots.min(slots);
            hit(hits, Bucket::MissingOver, !has_entry && (0..both).any(|slot| above(slot) && !counts(slot)));
            hit(hits, Bucket::MissingOverZero, !has_entry && (0..both).any(|slot| !above(slot) && counts(slot)));
            hit(hits, Bucket::MissingRelaid, has_entry && (0..slots).any(|slot| counts(slot) && !is_stub(slot) && !above(slot)));
        }
    }
}

/// What a compiler table counts.
fn by_compiler(view: &View, class: u32, compiled: &[u32], hits: &mut Hits) {
    let (record, step) = (view.sheet.class(class), view.step);
    let (place, slots) = (step.answer.first as usize, step.answer.second as usize);
    let table = &step.after.area[place + 1..][..slots];
    let parent_slots = if record.parent == 0 { 0 } else { view.sheet.class(record.parent).slots as usize };
    let counts = |slot: usize| is_counted(&step.after.missing, class, slot);
    let above = |slot: usize| slot < parent_slots && is_counted(&step.before.missing, record.parent, slot);
    let both = parent_slots.min(compiled.len());
    let parent_word = |slot: usize| step.before.area[view.sheet.class(record.parent).place as usize + 1 + slot];
    hit(hits, Bucket::MissingNonzero, (0..both).any(|slot| compiled[slot] != 0 && above(slot)));
    hit(hits, Bucket::MissingSameWord, (0..both).any(|slot| compiled[slot] != 0 && above(slot) && compiled[slot] == parent_word(slot)));
    hit(hits, Bucket::MissingZeroCopy, (0..both).any(|slot| compiled[slot] == 0 && above(slot) && table[slot] == parent_word(slot)));
    hit(hits, Bucket::MissingEmptied, (0..both).any(|slot| compiled[slot] == 0 && !above(slot) && counts(slot)));
    hit(hits, Bucket::MissingPastView, (both..compiled.len()).any(|slot| compiled[slot] == 0 && counts(slot)));
    let appended = compiled.len()..slots;
    hit(hits, Bucket::MissingAppended, appended.clone().any(|slot| counts(slot) && table[slot] != view.stubs[slot]));
    hit(hits, Bucket::MissingAppendedNot, appended.clone().any(|slot| !counts(slot)));
    let grown = step.before.set[1] != step.after.set[1];
    hit(hits, Bucket::MissingGrown, grown && (0..slots).any(counts));
}

/// A question for a count.
pub fn asked(view: &View, class: u32, hits: &mut Hits) {
    let (count, missing) = (view.sheet.class_count(), &view.step.before.missing);
    let is_short = missing.len() < WORDS * count as usize;
    hit(hits, Bucket::AskedZero, class == 0);
    hit(hits, Bucket::AskedAbove, class > count);
    let is_unlinked = (1..=count).contains(&class) && !view.sheet.is_linked(class);
    hit(hits, Bucket::AskedUnlinked, is_unlinked && !is_short);
    hit(hits, Bucket::AskedUnlinkedShort, is_unlinked && is_short);
    if view.step.answer.refusal == 0 {
        let answer = view.step.answer.first;
        hit(hits, Bucket::AskedNone, answer == 0);
        hit(hits, Bucket::AskedSome, answer > 0 && answer <= view.sheet.class(class).slots);
        hit(hits, Bucket::AskedHand, answer > view.sheet.class(class).slots);
    }
}
