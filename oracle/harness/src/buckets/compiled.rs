//! The buckets that a compiler table reaches.

use crate::model::argument_words;
use crate::model::parts::{AbiClass, AbiRecord, Entry, Method, eligible, fixed_index, native_view, reading};

use super::links::abi_classes;
use super::{Bucket, Hits, View, hit};

pub fn compiler_table<'a>(view: &View<'a>, class: u32, compiled: &[u32], hits: &mut Hits) {
    let (sheet, abi) = (&view.sheet, &view.abi);
    let parent = sheet.class(class).parent;
    let entries = if parent == 0 { Vec::new() } else { reading(sheet, abi, &view.step.before.area, parent) };
    let native = native_view(sheet, abi, class, &entries);
    let parent_abi = abi_classes(view, parent);
    for (index, (entry, kept)) in (0..).zip(entries.iter().zip(&native)) {
        let Some(method) = entry.method else {
            hits.push(Bucket::ViewUnknown);
            hit(hits, Bucket::ParentUnknownLost, index as usize >= compiled.len());
            continue;
        };
        hit(hits, Bucket::ViewEmptied, kept.method.is_none());
        let fixed = fixed_index(abi, &parent_abi, method.number) == Some(index);
        hit(hits, Bucket::ViewFixed, kept.method.is_some() && fixed);
        hit(hits, Bucket::ViewState3, kept.method.is_some() && !fixed);
    }

    let declared: Vec<Method> = sheet.methods_of(class).collect();
    let own_abi = abi.class_named(sheet.name(class));
    let mut added: Vec<Method> = Vec::new();
    for (index, &target) in compiled.iter().enumerate() {
        let there = native.get(index);
        if target == 0 {
            hits.push(match there {
                None => Bucket::SlotZeroPast,
                Some(entry) if entry.target == 0 && entry.method.is_none() => Bucket::SlotZeroEmpty,
                Some(_) => Bucket::SlotZeroView,
            });
            continue;
        }
        if let Some(entry) = there.filter(|entry| entry.target == target) {
            hits.push(if entry.method.is_some() { Bucket::SlotSame } else { Bucket::SlotSameUnknown });
            continue;
        }
        let fixed_at = |entry: AbiClass| abi.slots_of(entry).find(|slot| slot.index as usize == index);
        let interfaces = sheet.interfaces_of(class).iter().filter_map(|&interface| abi.class_named(sheet.name(interface)));
        let of_view = there.and_then(|entry| entry.method);
        let of_slot = |slot: AbiRecord<'a>| {
            let AbiRecord { name, descriptor, number, .. } = slot;
            Method { name, descriptor, flags: 1, target, owner: class, number }
        };
        let named = if let Some(method) = of_view {
            hits.push(Bucket::NamedByView);
            hit(hits, Bucket::NamedAbstract, method.flags & 0x0400 != 0);
            Method { flags: 1, target, owner: class, ..method }
        } else if let Some(slot) = own_abi.and_then(fixed_at) {
            hits.push(Bucket::NamedByOwnAbi);
            of_slot(slot)
        } else if let Some(slot) = interfaces.into_iter().find_map(fixed_at) {
            hits.push(Bucket::NamedByInterface);
            of_slot(slot)
        } else {
            hits.push(Bucket::Nameless);
            continue;
        };
        match declared.iter().find(|method| method.number == named.number) {
            Some(method) => hits.push(if method.flags & 0x0008 != 0 { Bucket::NotAddedStatic } else { Bucket::NotAddedDeclared }),
            None => {
                hits.push(Bucket::Added);
                hit(hits, Bucket::AddedTwice, added.iter().any(|method| method.number == named.number));
                hit(hits, Bucket::AddedToEmpty, declared.is_empty());
                let (bucket, flags) = match of_view {
                    None => (Bucket::AddedSlot255, 1),
                    Some(method) if method.flags & 0x0008 != 0 => (Bucket::AddedStatic255, method.flags),
                    Some(method) => (Bucket::AddedWords255, method.flags),
                };
                hit(hits, bucket, argument_words(named.descriptor, flags) == Ok(255));
                added.push(named);
            }
        }
    }
    hit(hits, Bucket::AddedMany, added.len() > 200);
    let table = Compiled { slots: compiled, parent: &entries, native: &native, declared: &declared, added: &added };
    matches_and_appends(view, class, &table, hits);
}

/// A compiler table's view and methods.
struct Compiled<'v, 'a> {
    slots: &'v [u32],
    parent: &'v [Entry<'a>],
    native: &'v [Entry<'a>],
    declared: &'v [Method<'a>],
    added: &'v [Method<'a>],
}

fn matches_and_appends(view: &View, class: u32, table: &Compiled, hits: &mut Hits) {
    let Compiled { slots: compiled, parent: entries, native, declared, added } = *table;
    let mut known: Vec<Method> = Vec::new();
    for (index, &target) in compiled.iter().enumerate() {
        if target == 0 {
            known.extend(native.get(index).and_then(|entry| entry.method));
            continue;
        }
        let in_view: Vec<Method> = native.iter().filter_map(|entry| entry.method).collect();
        let found = with_target(declared, target).map(|method| (method, Bucket::MatchedDeclared));
        let found = found.or_else(|| with_target(added, target).map(|method| (method, Bucket::MatchedAdded)));
        match found.or_else(|| with_target(&in_view, target).map(|method| (method, Bucket::MatchedNative))) {
            None => hits.push(Bucket::MatchedNone),
            Some((method, bucket)) => {
                hits.push(bucket);
                hit(hits, Bucket::MatchedIneligible, method.owner == class && !eligible(&method));
                known.push(method);
            }
        }
    }
    let inherited = entries.iter().filter_map(|entry| Some((entry.target, entry.method?)));
    let own = declared.iter().chain(added).map(|method| (method.target, *method));
    for (word, method) in own.chain(inherited).filter(|(_, method)| eligible(method)) {
        if known.iter().any(|known| known.number == method.number) {
            hit(hits, Bucket::AppendedNot, method.owner == class);
            continue;
        }
        hits.push(if method.owner == class { Bucket::AppendedDeclared } else { Bucket::AppendedParent });
        hit(hits, Bucket::AppendedParentAbi, method.owner != class && word != method.target);
        known.push(method);
    }
    let slots = compiled.len() + known.len();
    hit(hits, Bucket::CompiledAtLimit, compiled.len() >= 1016);
    hit(hits, Bucket::Row13Compiled, view.step.answer.refusal == 13 && slots > 1024);
}

fn with_target<'a>(methods: &[Method<'a>], target: u32) -> Option<Method<'a>> {
    methods.iter().find(|method| method.target == target).copied()
}
